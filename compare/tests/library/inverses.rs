//! The inverse on planes of every kind: reached by a picture, almost, and far from it.

use crate::random::{self, each_round, sample, Random};
use crate::same::Case;
use compare::reference::{places, ranges, undo, window, Form, Interval, Settings, TRANSFORMS};

/// A case whose planes some picture goes to.
fn reached(random: &mut Random, origin: &str) -> Case {
    let case = random::case(random, origin);
    Case { planes: case.forward().1, ..case }
}

#[test]
fn one_sample_off_by_one() {
    let mut accepted = 0;
    each_round("one_sample_off_by_one", 8000, |random, origin| {
        let mut case = reached(random, origin);
        *sample(random, &mut case) += random.one_of(&[-1, 1]);
        accepted += u32::from(case.inverse().0 == 0);
    });
    eprintln!("{accepted} accepted");
}

#[test]
fn some_samples_changed() {
    each_round("some_samples_changed", 3000, |random, origin| {
        let mut case = reached(random, origin);
        for _ in 0..=random.below(5) {
            let by = random.one_of(&[1, 2, 3, 50, 1 << 16]);
            *sample(random, &mut case) += random.between(-by, by) as i32;
        }
        case.inverse();
    });
}

/// One sample, or all, at the ends of the 32-bit range or near them.
#[test]
fn ends_of_the_number_range() {
    const ENDS: [i32; 8] = [i32::MIN, i32::MIN + 1, i32::MAX, i32::MAX - 1, 1 << 30, -(1 << 30), 1 << 22, -(1 << 22)];
    each_round("ends_of_the_number_range", 3000, |random, origin| {
        let mut case = reached(random, origin);
        if random.one_in(4) {
            let ends = [random.one_of(&ENDS), random.one_of(&ENDS), random.one_of(&ENDS)];
            case.planes = ends.map(|end| vec![end; case.samples()]);
        } else {
            *sample(random, &mut case) = random.one_of(&ENDS);
        }
        assert_eq!(case.inverse().0, 12, "{case}");
    });
}

/// The case with planes of numbers within their ranges, at their ends, one beyond, or far outside.
pub fn by_range(random: &mut Random, case: &Case) -> Case {
    let beyond = random.one_of(&[0, 0, 1, 1000, 1 << 20]);
    let at_ends = random.one_in(3);
    let planes = ranges(case.settings.depths, case.settings.transform).map(|range| {
        let (low, high) = (range.low - beyond, range.high + beyond);
        let mut number = || if at_ends { random.one_of(&[low, high]) } else { random.between(low, high) };
        (0..case.samples()).map(|_| number() as i32).collect()
    });
    case.with(planes)
}

#[test]
fn planes_by_range() {
    each_round("inverses::planes_by_range", 6000, |random, origin| {
        let case = random::case(random, origin);
        by_range(random, &case).inverse();
    });
}

/// Numbers that wrap to a reached sample in 8, 16 or 20 bits must not be taken for it.
#[test]
fn samples_a_power_of_two_away() {
    each_round("samples_a_power_of_two_away", 2000, |random, origin| {
        let mut case = reached(random, origin);
        let power = 1i32 << (17 + random.below(14));
        let sample = sample(random, &mut case);
        *sample = sample.wrapping_add(random.one_of(&[power, -power]));
        assert_eq!(case.inverse().0, 12, "{case}");
    });
}

/// The ends of every range, one pixel, every transform and depth: within a range and reached or not,
/// the answer is the reference's; one beyond it is always 12.
#[test]
fn range_ends_of_one_pixel() {
    each_round("range_ends_of_one_pixel", 1, |random, origin| {
        for transform in 0..TRANSFORMS {
            for depths in random::many_depths(random) {
                let settings = Settings { width: 1, height: 1, depths, transform };
                let ends = ranges(depths, transform).map(|Interval { low, high }| [low - 1, low, 0, high, high + 1]);
                for nulls in 0..1u32 << places(transform) {
                    let mut case = random::case_of(random, settings, origin);
                    case.set_nulls(nulls, || 0);
                    for code in 0..125 {
                        let which = [code % 5, code / 5 % 5, code / 25];
                        case.planes = [0, 1, 2].map(|plane| vec![ends[plane][which[plane]] as i32]);
                        let (answer, _) = case.inverse();
                        let beyond = which.iter().any(|&end| end == 0 || end == 4);
                        assert!(!beyond || answer == 12, "{case}");
                    }
                }
            }
        }
    });
}

/// One number for each plane, at the ends of the ranges: all eight sets.
fn corners(depths: [u32; 3], transform: u32) -> [[i64; 3]; 8] {
    let ends = ranges(depths, transform).map(|range| [range.low, range.high]);
    [0, 1, 2, 3, 4, 5, 6, 7].map(|code| [0, 1, 2].map(|plane| ends[plane][code >> plane & 1]))
}

/// Planes of one number each, at the ends of their ranges where a plane has 16 bits, with every filter and every set of
/// null places.
#[test]
fn large_window_sums() {
    each_round("large_window_sums", 1, |random, origin| {
        for transform in 0..TRANSFORMS {
            for nulls in 0..1u32 << places(transform) {
                for filter in 0..12 {
                    for depths in [[16; 3], random.one_of(&[[2, 16, 16], [16, 2, 16], [16, 16, 2], [2, 16, 2]])] {
                        let settings = Settings { width: 4, height: 3, depths, transform };
                        let mut case = random::case_of(random, settings, origin);
                        case.set_nulls(nulls, || filter);
                        for numbers in corners(depths, transform) {
                            case.planes = numbers.map(|number| vec![number as i32; case.samples()]);
                            case.inverse();
                            sums_fit(&case);
                        }
                    }
                }
            }
        }
    });
}

/// The sum of a whole window, doubled and with the weights added, fits 32 signed bits for the highest centre weight: in
/// the planes lent, and with all steps undone.
fn sums_fit(case: &Case) {
    let Settings { width, height, transform, .. } = case.settings;
    let (width, height) = (width as usize, height as usize);
    let lent = case.planes.each_ref().map(|plane| plane.iter().map(|&number| i64::from(number)).collect());
    let undone = undo(Form::Plain, transform, width, height, case.band_height, &case.choices, lent.clone());
    for plane in lent.iter().chain(&undone) {
        let (sum, weights) = window(plane, width, height, 11, 1, 1);
        assert!(i32::try_from(2 * sum + weights).is_ok(), "{case}");
    }
}
