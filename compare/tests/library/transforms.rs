//! Forward and back on pictures.

use crate::random::{self, each_round, Random};
use crate::same::Case;
use crate::wrapped;
use compare::reference::{greatest, places, Settings, TRANSFORMS};

/// Forward as the reference, and back to the picture; the same in the wrapped form.
pub fn there_and_back(case: &Case) {
    let (answer, finished) = case.forward();
    assert_eq!(answer, 0, "{case}");
    case.with(finished).inverse_as(Ok(case.planes.clone()));
    wrapped::both_ways(&case.wrapped());
}

#[test]
fn random_pictures() {
    each_round("random_pictures", 8000, |random, origin| there_and_back(&random::case(random, origin)));
}

#[test]
fn every_size() {
    each_round("every_size", 2, |random, origin| {
        for width in 1..=20 {
            for height in 1..=20 {
                for transform in 0..TRANSFORMS {
                    let depths = random::depths(random);
                    let settings = Settings { width, height, depths, transform };
                    there_and_back(&random::case_of(random, settings, origin));
                }
            }
        }
    });
}

#[test]
fn every_filter_at_every_place() {
    const SIZES: [(u32, u32); 7] = [(1, 1), (2, 1), (1, 3), (2, 2), (3, 3), (7, 5), (19, 4)];
    each_round("every_filter_at_every_place", 6, |random, origin| {
        for transform in 0..TRANSFORMS {
            for place in 0..places(transform) {
                for filter in 0..=12 {
                    for (width, height) in SIZES {
                        let depths = random::depths(random);
                        let mut case = random::case_of(random, Settings { width, height, depths, transform }, origin);
                        case.choices[place] = filter;
                        there_and_back(&case);
                    }
                }
            }
        }
    });
}

/// With every filter null a picture's planes stay as they are, forward and back.
#[test]
fn every_filter_null() {
    each_round("every_filter_null", 500, |random, origin| {
        let mut case = random::case(random, origin);
        case.choices = vec![12; case.choices.len()];
        assert_eq!(case.forward(), (0, case.planes.clone()), "{case}");
        case.inverse_as(Ok(case.planes.clone()));
        let wrapped = case.wrapped();
        assert_eq!(wrapped.forward_wrapped(), (0, case.planes.clone()), "{wrapped}");
        assert_eq!(wrapped.inverse_wrapped(), (0, case.planes.clone()), "{wrapped}");
    });
}

/// Null at every set of places, other filters at the other places.
#[test]
fn every_set_of_null_places() {
    const SIZES: [(u32, u32); 4] = [(1, 1), (3, 1), (2, 5), (17, 6)];
    each_round("every_set_of_null_places", 20, |random, origin| {
        for transform in 0..TRANSFORMS {
            for nulls in 0..1u32 << places(transform) {
                for (width, height) in SIZES {
                    let depths = random::depths(random);
                    let mut case = random::case_of(random, Settings { width, height, depths, transform }, origin);
                    case.set_nulls(nulls, || random.below(12) as u8);
                    there_and_back(&case);
                }
            }
        }
    });
}

/// Samples at the ends of their range, at every depth.
#[test]
fn extreme_samples() {
    each_round("extreme_samples", 2, |random, origin| {
        for depths in random::many_depths(random) {
            for transform in 0..TRANSFORMS {
                for filter in 0..=12 {
                    let settings = Settings { width: 9, height: 7, depths, transform };
                    let mut case = random::case_of(random, settings, origin);
                    if random.one_in(2) {
                        case.choices = vec![filter; places(transform)];
                    } else {
                        case.choices[random.below(places(transform))] = filter;
                    }
                    case.planes = extremes(random, depths, case.samples());
                    there_and_back(&case);
                }
            }
        }
    });
}

fn extremes(random: &mut Random, depths: [u32; 3], samples: usize) -> [Vec<i32>; 3] {
    greatest(depths).map(|greatest| {
        let greatest = greatest as i32;
        let kind = random.below(4);
        let sample = |i: usize| match kind {
            0 => 0,
            1 => greatest,
            2 => i as i32 % 2 * greatest,
            _ => (i as i32 + 1) % 2 * greatest,
        };
        (0..samples).map(sample).collect()
    })
}

#[test]
fn larger_pictures() {
    const SIZES: [(u32, u32); 9] =
        [(1, 8192), (8192, 1), (8192, 3), (2, 8192), (97, 101), (300, 200), (64, 65), (513, 31), (1024, 128)];
    each_round("larger_pictures", 1, |random, origin| {
        for (width, height) in SIZES {
            for transform in 0..TRANSFORMS {
                let depths = random::depths(random);
                there_and_back(&random::case_of(random, Settings { width, height, depths, transform }, origin));
            }
        }
    });
}
