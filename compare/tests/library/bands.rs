//! Bands. `refusals.rs` tries their refusals beside all others, `small.rs` all planes of few rows, and `locality.rs`
//! how far their numbers look.

use crate::inverses::by_range;
use crate::random::{self, each_round, sample, Random};
use crate::same::Case;
use crate::transforms::there_and_back;
use crate::wrapped::{staying, BY_ONE_STEP};
use compare::reference::{greatest, places, Settings, TRANSFORMS};
use std::ops::Range;

type Planes = [Vec<i32>; 3];
type Call = fn(&Case) -> (u32, Planes);

const CALLS: [Call; 4] = [Case::forward, Case::inverse, Case::forward_wrapped, Case::inverse_wrapped];

/// A case of that size and transform, without bands.
fn case_of(random: &mut Random, (width, height): (u32, u32), transform: u32, origin: &str) -> Case {
    let depths = random::depths(random);
    random::case_without_scratch(random, Settings { width, height, depths, transform }, origin)
}

/// A picture of one number in each plane, with one depth, and choices all 0.
fn flat(size: (u32, u32), depth: u32, transform: u32, number: i32) -> Case {
    let mut case = case_of(&mut Random::new(1), size, transform, "");
    case.settings.depths = [depth; 3];
    case.choices.fill(0);
    case.with([(); 3].map(|()| vec![number; case.samples()]))
}

/// Some rows of the planes.
fn part(case: &Case, planes: &Planes, rows: Range<usize>) -> Planes {
    let width = case.settings.width as usize;
    planes.each_ref().map(|plane| plane[rows.start * width..rows.end * width].to_vec())
}

/// Both cases give the same: forward and back, back from their planes as they stand, and in the wrapped form.
fn same_answers(case: &Case, other: &Case) {
    let forward = case.forward();
    assert_eq!(other.forward(), forward, "{case}{other}");
    assert_eq!(other.with(forward.1.clone()).inverse(), case.with(forward.1).inverse(), "{case}{other}");
    assert_eq!(other.inverse(), case.inverse(), "{case}{other}");
    let (case, other) = (case.wrapped(), other.wrapped());
    assert_eq!(other.forward_wrapped(), case.forward_wrapped(), "{case}{other}");
    assert_eq!(other.inverse_wrapped(), case.inverse_wrapped(), "{case}{other}");
}

/// The reference's own cases. RDgDb, bands of two rows: the second row's window reads the third row, the third row's
/// the second. RCT, bands of one row: the third step is skipped in the first row alone.
#[test]
fn one_column() {
    let column = |transform, rows, sets: &[u8], finished: [[i32; 3]; 3]| {
        let case = flat((1, 3), 8, transform, 0).with_bands(rows, sets.to_vec());
        let case = case.with([[10, 20, 40], [100, 110, 121], [7, 9, 12]].map(|plane| plane.to_vec()));
        assert_eq!(case.forward(), (0, finished.map(|plane| plane.to_vec())), "{case}");
        there_and_back(&case);
    };
    column(2, 1, &[1, 0, 12, 1, 0, 12], [[10, 20, 40], [-90, -87, 121], [98, 9, 109]]);
    column(2, 2, &[1, 12, 12, 1], [[10, 20, 40], [100, 110, -91], [98, 101, 12]]);
    column(3, 2, &[0, 1, 0, 0, 12, 1], [[55, 64, 40], [-90, -90, -81], [-48, -55, -40]]);
    let sets = [0, 0, 12, 12, 0, 0, 12, 0, 0, 0, 0, 12];
    column(0, 1, &sets, [[-90, -90, -81], [100, 84, 100], [-93, -101, -109]]);
}

#[test]
fn random_pictures() {
    each_round("bands::random_pictures", 8000, |random, origin| there_and_back(&random::banded_case(random, origin)));
}

#[test]
fn every_height_and_band_height() {
    each_round("every_height_and_band_height", 4, |random, origin| {
        for (height, rows) in (1..=14).flat_map(|height| (1..=height).map(move |rows| (height, rows))) {
            for transform in 0..TRANSFORMS {
                let size = (random.one_of(&[1, 2, 3, 8]), height);
                let case = case_of(random, size, transform, origin);
                there_and_back(&random::banded_by(random, &case, rows));
            }
        }
    });
}

/// Null at every set of places in one band, and at every set in the next, other filters at the other places.
#[test]
fn every_two_sets_of_null_places() {
    const SIZES: [(u32, u32, u32); 4] = [(1, 2, 1), (3, 3, 2), (2, 5, 3), (9, 4, 2)];
    each_round("every_two_sets_of_null_places", 2, |random, origin| {
        for transform in 0..TRANSFORMS {
            for nulls in 0..1u32 << (2 * places(transform)) {
                for (width, height, rows) in SIZES {
                    let case = case_of(random, (width, height), transform, origin);
                    let mut case = case.with_bands(rows, vec![0; 2 * places(transform)]);
                    case.set_nulls(nulls, || random.below(12) as u8);
                    there_and_back(&case);
                }
            }
        }
    });
}

/// Every filter at every place of the first, the second and the last band.
#[test]
fn every_filter_in_every_band() {
    each_round("every_filter_in_every_band", 4, |random, origin| {
        for transform in 0..TRANSFORMS {
            for place in 0..3 * places(transform) {
                for filter in 0..=12 {
                    for (width, height, rows) in [(1, 3, 1), (4, 5, 2), (5, 9, 3)] {
                        let case = case_of(random, (width, height), transform, origin);
                        let mut case = random::banded_by(random, &case, rows);
                        case.choices[place] = filter;
                        there_and_back(&case);
                    }
                }
            }
        }
    });
}

/// Samples at the ends of their ranges, at all depths.
#[test]
fn extreme_samples() {
    each_round("bands::extreme_samples", 4, |random, origin| {
        for depths in random::many_depths(random) {
            for transform in 0..TRANSFORMS {
                let settings = Settings { width: 5, height: 7, depths, transform };
                let case = random::case_without_scratch(random, settings, origin);
                let mut case = random::banded(random, &case);
                let mut end = |greatest: i64| random.one_of(&[0, greatest as i32]);
                case.planes = greatest(depths).map(|greatest| (0..case.samples()).map(|_| end(greatest)).collect());
                there_and_back(&case);
            }
        }
    });
}

/// As many bands as there can be, in a column of the greatest height, and few of them; also the widest pictures.
#[test]
fn many_bands() {
    each_round("many_bands", 1, |random, origin| {
        for transform in 0..TRANSFORMS {
            for (size, band_heights) in [
                ((1, 8192), &[1, 2, 3, 4095, 4096, 8191, 8192][..]),
                ((2, 8191), &[1, 1000]),
                ((8192, 3), &[1, 2]),
                ((150, 120), &[1, 7, 64]),
            ] {
                for &rows in band_heights {
                    let case = case_of(random, size, transform, origin);
                    let case = random::banded_by(random, &case, rows);
                    assert_eq!(case.choices.len(), places(transform) * size.1.div_ceil(rows) as usize);
                    there_and_back(&case);
                }
            }
        }
    });
}

/// "Bands as high as the picture equal the plain transform", and so do equal sets: on a picture, and on planes of any
/// numbers.
#[test]
fn same_as_without_bands() {
    each_round("same_as_without_bands", 1500, |random, origin| {
        let settings = random::settings(random);
        let picture = random::case_without_scratch(random, settings, origin);
        let rows = 1 + random.below(settings.height as usize) as u32;
        let bands = settings.height.div_ceil(rows) as usize;
        for case in [by_range(random, &picture), picture] {
            same_answers(&case, &case.with_bands(settings.height, case.choices.clone()));
            same_answers(&case, &case.with_bands(rows, case.choices.repeat(bands)));
        }
    });
}

/// Each band cut into bands of one row, with its set for each of them.
#[test]
fn same_as_bands_of_one_row() {
    each_round("same_as_bands_of_one_row", 2000, |random, origin| {
        let case = random::banded_case(random, origin);
        let (_, sets) = case.choices_of(0..case.settings.height as usize);
        same_answers(&case, &case.with_bands(1, sets));
    });
}

/// A band with null at all places stays as it is, there and back, whatever the filters above and below.
#[test]
fn mask_between_two_bands() {
    each_round("mask_between_two_bands", 300, |random, origin| {
        for transform in 0..TRANSFORMS {
            let band = 1 + random.below(4) as u32;
            let size = (1 + random.below(6) as u32, 2 * band + 1 + random.below(band as usize) as u32);
            let case = case_of(random, size, transform, origin);
            let mut other = || (0..places(transform)).map(|_| random.below(12) as u8).collect::<Vec<u8>>();
            let case = case.with_bands(band, [other(), vec![12; places(transform)], other()].concat()).wrapped();
            let mask = band as usize..2 * band as usize;
            let before = part(&case, &case.planes, mask.clone());
            for call in [Case::forward, Case::forward_wrapped, Case::inverse_wrapped] {
                let (answer, after) = call(&case);
                assert_eq!((answer, part(&case, &after, mask.clone())), (0, before.clone()), "{case}");
            }
            there_and_back(&case);
        }
    });
}

/// Where one step alone makes a plane, of planes of the picture itself, each row has the numbers of the call without
/// bands under the row's set. So its windows are whole ones.
#[test]
fn rows_as_without_bands() {
    each_round("rows_as_without_bands", 1000, |random, origin| {
        let case = random::banded_case(random, origin);
        for (call, case) in [(Case::forward as Call, &case), (Case::forward_wrapped, &case.wrapped())] {
            let (_, banded) = call(case);
            for row in 0..case.settings.height as usize {
                let (_, plain) = call(&Case { band_height: None, choices: case.set_of(row).to_vec(), ..case.clone() });
                let [one, other] = [&banded, &plain].map(|planes| part(case, planes, row..row + 1));
                for &plane in BY_ONE_STEP[case.settings.transform as usize] {
                    assert_eq!(one[plane], other[plane], "row {row}\n{case}");
                }
            }
        }
    });
}

/// The places of each step, from 0 on.
const STEPS: [&[&[usize]]; 4] = [&[&[0], &[1], &[2, 3]], &[&[0], &[1], &[2], &[3]], &[&[0], &[1]], &[&[0], &[1], &[2]]];

/// What steps with these places do, one after the other, each row of each step by a call without bands that has the
/// row's filters at the step's places and null at all others.
fn step_by_step(case: &Case, call: Call, steps: &[&[usize]]) -> Planes {
    let width = case.settings.width as usize;
    let mut case = case.clone();
    for step in steps {
        let mut after = case.planes.clone();
        for row in 0..case.settings.height as usize {
            let filter = |(place, &filter): (usize, &u8)| if step.contains(&place) { filter } else { 12 };
            let choices = case.set_of(row).iter().enumerate().map(filter).collect();
            let (answer, planes) = call(&Case { band_height: None, choices, ..case.clone() });
            assert_eq!(answer, 0, "{case}");
            for (plane, from) in after.iter_mut().zip(planes) {
                plane[row * width..][..width].copy_from_slice(&from[row * width..][..width]);
            }
        }
        case.planes = after;
    }
    case.planes
}

/// "Each step still covers the whole picture first", in the wrapped form, where all planes between two steps are
/// pictures.
#[test]
fn steps_one_by_one() {
    each_round("steps_one_by_one", 500, |random, origin| {
        for (transform, steps) in (0..TRANSFORMS).zip(STEPS) {
            let size = (1 + random.below(4) as u32, 1 + random.below(7) as u32);
            let case = case_of(random, size, transform, origin).wrapped();
            let case = random::banded(random, &case);
            assert_eq!(case.forward_wrapped(), (0, step_by_step(&case, Case::forward_wrapped, steps)), "{case}");
            let undone: Vec<&[usize]> = steps.iter().rev().copied().collect();
            assert_eq!(case.inverse_wrapped(), (0, step_by_step(&case, Case::inverse_wrapped, &undone)), "{case}");
        }
    });
}

/// The same in the plain form, on pictures that no step changes to anything but a picture.
#[test]
fn steps_one_by_one_in_the_plain_form() {
    each_round("steps_one_by_one_in_the_plain_form", 500, |random, origin| {
        for (transform, steps) in (0..TRANSFORMS).zip(STEPS) {
            let size = (1 + random.below(4) as u32, 1 + random.below(7) as u32);
            let case = case_of(random, size, transform, origin).wrapped();
            let mut case = random::banded(random, &case);
            let mut sample = |(low, high)| random.between(low, high) as i32;
            let ranges = staying(transform, greatest(case.settings.depths)[0]);
            case.planes = ranges.map(|range| (0..case.samples()).map(|_| sample(range)).collect());
            let finished = step_by_step(&case, Case::forward, steps);
            assert_eq!(case.forward(), (0, finished.clone()), "{case}");
            case.with(finished).inverse_as(Ok(case.planes.clone()));
        }
    });
}

/// A raised sample changes the first step's numbers in its whole 3 by 3 window and nowhere else, wherever edges of
/// bands are.
#[test]
fn windows_across_edges() {
    // The plane that the first step changes, and the plane that it filters.
    const STEP: [(usize, usize); 4] = [(0, 1), (0, 2), (2, 1), (1, 0)];
    let apart = |one: usize, other: usize| (one / 5).abs_diff(other / 5).max((one % 5).abs_diff(other % 5));
    for (transform, (changed, filtered)) in (0..TRANSFORMS).zip(STEP) {
        for (filter, band) in (1..=11).flat_map(|filter| (1..=6).map(move |band| (filter, band))) {
            let case = flat((5, 6), 16, transform, 1 << 14);
            let sets = [vec![filter; places(transform)], vec![12 - filter; places(transform)]];
            let bands = 6usize.div_ceil(band as usize);
            let case = case.with_bands(band, sets.into_iter().cycle().take(bands).flatten().collect());
            for pixel in 0..30 {
                let mut raised = case.clone();
                raised.planes[filtered][pixel] += 1 << 15;
                for call in [Case::forward, Case::forward_wrapped] {
                    let [one, other] = [&case, &raised].map(|case| call(case).1[changed].clone());
                    let differ: Vec<usize> = (0..30).filter(|&at| one[at] != other[at]).collect();
                    let near: Vec<usize> = (0..30).filter(|&at| apart(at, pixel) <= 1).collect();
                    assert_eq!(differ, near, "pixel {pixel}\n{case}");
                }
            }
        }
    }
}

/// Finished planes with one number changed by a little, by much or not at all. Some must be accepted and some refused.
#[test]
fn damaged_planes() {
    each_round("damaged_planes", 60, |random, origin| {
        let mut refused = [0; 2];
        for depths in random::many_depths(random) {
            for transform in 0..TRANSFORMS {
                let settings = Settings { depths, transform, ..random::settings(random) };
                let case = random::case_without_scratch(random, settings, origin);
                let picture = random::banded(random, &case);
                let mut case = picture.with(picture.forward().1);
                let by = random.one_of(&[0, 1, 1, 2, 50, 1 << 16, 1 << 30]);
                let damaged = sample(random, &mut case);
                *damaged = damaged.wrapping_add(random.one_of(&[-by, by]));
                let (answer, after) = case.inverse();
                assert!(by != 0 || after == picture.planes, "{case}");
                refused[usize::from(answer != 0)] += 1;
            }
        }
        assert!(!refused.contains(&0), "{refused:?}\n{origin}");
    });
}

/// Planes that nothing leads to, or something by chance.
#[test]
fn planes_by_range() {
    each_round("bands::planes_by_range", 6000, |random, origin| {
        let case = random::banded_case(random, origin);
        by_range(random, &case).inverse();
    });
}

/// The planes of a picture with bands are refused with other sets, if these lead to no picture; else they lead to
/// another.
#[test]
fn planes_of_other_bands() {
    each_round("planes_of_other_bands", 2000, |random, origin| {
        let case = random::banded_case(random, origin);
        let other = random::banded(random, &case.with(case.forward().1));
        let (answer, picture) = other.inverse();
        if answer == 0 {
            assert_eq!(other.with(picture).forward(), (0, other.planes.clone()), "{other}");
        }
    });
}

/// The answers of all calls.
fn answers(case: &Case) -> [u32; 4] {
    CALLS.map(|call| call(case).0)
}

/// Every band height up to beyond the picture's, and every number of choices up to beyond the greatest.
#[test]
fn numbers_of_choices() {
    for (transform, height) in (0..TRANSFORMS).flat_map(|transform| (1..=6).map(move |height| (transform, height))) {
        for rows in (0..=height + 2).chain([u32::MAX - 1, u32::MAX]) {
            for count in 0..=places(transform) * (height as usize + 1) + 1 {
                let case = flat((1, height), 8, transform, 0).with_bands(rows, vec![1; count]);
                let number = if rows == 0 || rows > height {
                    17
                } else if count != places(transform) * (0..height).step_by(rows as usize).count() {
                    7
                } else {
                    0
                };
                assert_eq!(answers(&case), [number; 4], "{case}");
            }
        }
    }
}

/// The greatest number of choices that a call takes, and others near it and far from it.
#[test]
fn numbers_of_many_choices() {
    for transform in 0..TRANSFORMS {
        let (places, case) = (places(transform), flat((1, 8192), 8, transform, 0));
        let needed = 8192 * places;
        let answers = |rows, count| answers(&case.with_bands(rows, vec![12; count]));
        assert_eq!(answers(1, needed), [0; 4]);
        let others = [0, 1, places, needed / 2, needed - places, needed - 1, needed + 1, needed + places];
        for count in others.into_iter().chain([needed + (1 << 16), 8 * needed, 1 << 20]) {
            assert_eq!(answers(1, count), [7; 4], "{count} choices");
            for rows in [0, 8193, 8192 + (1 << 16), u32::MAX] {
                assert_eq!(answers(rows, count), [17; 4], "{count} choices, bands of {rows}");
            }
        }
        for (rows, count) in [(2, needed), (8191, places), (8191, 3 * places), (8192, 2 * places), (4096, 3 * places)] {
            assert_eq!(answers(rows, count), [7; 4], "{count} choices, bands of {rows}");
        }
    }
}

/// One choice above 12, at every place of every band.
#[test]
fn choices_above_12() {
    for transform in 0..TRANSFORMS {
        let case = flat((2, 7), 8, transform, 3).with_bands(2, vec![12; 4 * places(transform)]);
        assert_eq!(answers(&case), [0; 4], "{case}");
        for place in 0..case.choices.len() {
            for filter in [13, 14, 128, 255] {
                let mut case = case.clone();
                case.choices[place] = filter;
                assert_eq!(answers(&case), [7; 4], "{case}");
            }
        }
    }
}
