//! Three depths: the need of counters, and samples past their own plane's depth.

use crate::library;
use crate::random::{self, each_round, Random};
use crate::same::Case;
use compare::reference::{self, all_depths, greatest, Settings, TRANSFORMS};

/// A deeper depth than the plane's own that another plane has, if there is one.
fn deeper(depths: [u32; 3], plane: usize) -> Option<u32> {
    depths.into_iter().filter(|&depth| depth > depths[plane]).min()
}

#[test]
fn counters_at_all_depths() {
    for depths in all_depths() {
        for transform in 0..TRANSFORMS {
            let needed = reference::counters(depths, transform);
            assert_eq!(library::counters(depths, transform), Some(needed), "depths {depths:?} transform {transform}");
        }
    }
}

/// A depth or a transform that is refused has no counters.
#[test]
fn counters_of_refused_settings() {
    const REFUSED: [u32; 10] = [0, 1, 17, 18, 31, 32, 34, 256 + 8, 1 << 31, u32::MAX];
    each_round("counters_of_refused_settings", 300, |random, origin| {
        let depths = random::depths(random);
        for transform in 0..TRANSFORMS {
            for refused in REFUSED {
                for plane in 0..3 {
                    let mut depths = depths;
                    depths[plane] = refused;
                    assert_eq!(library::counters(depths, transform), None, "{depths:?}\n{origin}");
                }
                assert_eq!(library::counters([refused; 3], transform), None, "{origin}");
            }
        }
        for transform in [4, 5, 256, 1 << 16, u32::MAX] {
            assert_eq!(library::counters(depths, transform), None, "{depths:?} {transform}\n{origin}");
        }
    });
}

/// A case of few pixels at three depths that are not all equal.
fn unequal(random: &mut Random, origin: &str) -> Case {
    loop {
        let mut settings = random::settings(random);
        (settings.width, settings.height) = (settings.width.min(5), settings.height.min(4));
        if settings.depths != [settings.depths[0]; 3] {
            return random::case_of(random, settings, origin);
        }
    }
}

/// As many counters as the library tells are enough, one fewer is not.
#[test]
fn counters_told_are_needed() {
    each_round("counters_told_are_needed", 200, |random, origin| {
        let mut case = unequal(random, origin);
        let Settings { depths, transform, .. } = case.settings;
        case.counters = vec![9; library::counters(depths, transform).unwrap()];
        assert_eq!((case.both_estimates().refusal, case.both_searches().0.refusal), (0, 0), "{case}");
        case.counters.pop();
        assert_eq!((case.both_estimates().refusal, case.both_searches().0.refusal), (9, 9), "{case}");
    });
}

/// A plane's greatest sample passes, the next is refused, also where another plane may have it.
#[test]
fn samples_just_past_their_depth() {
    each_round("samples_just_past_their_depth", 300, |random, origin| {
        let case = unequal(random, origin);
        for (plane, greatest) in greatest(case.settings.depths).into_iter().enumerate() {
            let index = random.below(case.samples());
            for (sample, number) in [(greatest, 0), (greatest + 1, 11), (2 * greatest + 1, 11), (-1, 11)] {
                let mut case = case.clone();
                case.planes[plane][index] = sample as i32;
                assert_eq!(case.forward().0, number, "{case}");
                assert_eq!(case.both_estimates().refusal, number, "{case}");
                if number == 11 {
                    assert_eq!(case.both_searches().0.refusal, 11, "{case}");
                }
            }
        }
    });
}

/// A picture with one sample past its own plane's depth but within another's: its planes are refused and left as lent.
/// With that plane deeper they come back.
#[test]
fn planes_of_a_picture_past_its_depths() {
    each_round("planes_of_a_picture_past_its_depths", 3000, |random, origin| {
        let own = unequal(random, origin);
        for plane in 0..3 {
            let Some(depth) = deeper(own.settings.depths, plane) else { continue };
            let mut deep = own.clone();
            deep.settings.depths[plane] = depth;
            let index = random.below(deep.samples());
            deep.planes[plane][index] = random.between(1 << own.settings.depths[plane], (1 << depth) - 1) as i32;
            let (answer, finished) = deep.forward();
            assert_eq!(answer, 0, "{deep}");
            let back = deep.with(finished);
            back.inverse_as(Ok(deep.planes));
            Case { settings: own.settings, ..back }.inverse_as(Err(12));
        }
    });
}
