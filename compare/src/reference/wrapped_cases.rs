//! The wrapped forms: the second paper's cases, and that they reverse both ways.

use super::depth_cases::{null_sets, pictures};
use super::*;
use std::collections::HashSet;

const WRAPPED: Form = Form::Wrapped(8);
const PIXEL: [i64; 3] = [10, 200, 60];

fn pixel(transform: u32, filters: &[u8], samples: [i64; 3]) -> [i64; 3] {
    run(WRAPPED, transform, 1, 1, None, filters, samples.map(|sample| vec![sample])).map(|plane| plane[0])
}

#[test]
fn one_pixel() {
    // C3: -60 + 200 = 140. C2: -200 + 10 = -190, 66.
    assert_eq!(pixel(2, &[0; 2], PIXEL), [10, 66, 140]);
    // C2: 66 as before. C1: 10 - 66/2 = -23, 233. C3: 60 - 233 = -173, 83.
    assert_eq!(pixel(3, &[0; 3], PIXEL), [233, 66, 83]);
    // C1: 10 - 200 = -190, 66. C3: 60 - 200 = -140, 116. C2: 200 + (66 + 116)/4 = 200 + 45 = 245.
    assert_eq!(pixel(0, &[0; 4], PIXEL), [66, 245, 116]);
    // C1: 10 - 60 = -50, 206. C3: 60 + 206/2 = 163. C2: 200 - 163 = 37. C3: 163 + 37/2 = 163 + 18 = 181.
    assert_eq!(pixel(1, &[0; 4], PIXEL), [206, 37, 181]);
}

/// The quarter is that of 203 + 103 = 306, which is 76. Of 306 - 256 = 50 it would be 12, of each value by itself 50 + 25.
#[test]
fn sum_divided_before_it_is_reduced() {
    assert_eq!(pixel(0, &[0; 4], [203, 0, 103]), [203, 76, 103]);
    // 250 + 76 = 326, 70. Here C1 is 197 + 6, C3 is 97 + 6.
    assert_eq!(pixel(0, &[0; 4], [197, 250, 97]), [203, 70, 103]);
}

/// C2 is 10 - 11 = -1, kept as 255, and 10 - 9 = 1; the mean of 255 and 1 is 128, that of -1 and 1 would be 0.
/// C1: 10 - 128/2 = -54, 202. C3: 5 - 202 = -197, 59.
#[test]
fn mean_of_kept_numbers() {
    let planes = run(WRAPPED, 3, 2, 1, None, &[0, 1, 0], [vec![10, 10], vec![11, 9], vec![5, 5]]);
    assert_eq!(planes, [vec![202, 202], vec![255, 1], vec![59, 59]]);
}

#[test]
fn null_steps() {
    for transform in 0..TRANSFORMS {
        assert_eq!(pixel(transform, &vec![12; places(transform)], PIXEL), PIXEL);
    }
    assert_eq!(pixel(2, &[12, 0], PIXEL), [10, 66, 60]);
    assert_eq!(pixel(2, &[0, 12], PIXEL), [10, 200, 140]);
    // C1: 10 - 200/2 = -90, 166. C3: 60 - 166 = -106, 150.
    assert_eq!(pixel(3, &[12, 0, 0], PIXEL), [166, 200, 150]);
    // 200 + 116/4, 200 + 66/4, and neither.
    assert_eq!(pixel(0, &[0, 0, 12, 0], PIXEL), [66, 229, 116]);
    assert_eq!(pixel(0, &[0, 0, 0, 12], PIXEL), [66, 216, 116]);
    assert_eq!(pixel(0, &[0, 0, 12, 12], PIXEL), [66, 200, 116]);
}

/// Every three planes of 0 to M come from exactly one picture: all of them are tried, in a row of `samples`.
fn reverse(depth: u32, samples: u32, transform: u32, filters: &[u8]) {
    let (form, width) = (Form::Wrapped(depth), samples as usize);
    let mut reached = HashSet::new();
    for planes in pictures([depth; 3], samples) {
        let finished = run(form, transform, width, 1, None, filters, planes.clone());
        assert!(finished.iter().flatten().all(|number| (0..1 << depth).contains(number)), "depth {depth} {filters:?}");
        assert_eq!(undo(form, transform, width, 1, None, filters, finished.clone()), planes);
        let before = undo(form, transform, width, 1, None, filters, planes.clone());
        assert_eq!(run(form, transform, width, 1, None, filters, before), planes);
        assert!(reached.insert(finished), "depth {depth} filters {filters:?}");
    }
    assert_eq!(reached.len(), 1 << (3 * depth * samples));
}

#[test]
fn one_pixel_reverses() {
    for transform in 0..TRANSFORMS {
        for depth in 2..=4 {
            null_sets(transform, 0).for_each(|filters| reverse(depth, 1, transform, &filters));
        }
    }
}

#[test]
fn two_pixels_reverse() {
    for transform in 0..TRANSFORMS {
        (0..=12).for_each(|filter| reverse(2, 2, transform, &vec![filter; places(transform)]));
        null_sets(transform, 1).for_each(|filters| reverse(2, 2, transform, &filters));
    }
}

fn call(settings: Settings, choices: &[u8], samples: [i32; 3]) -> [Option<RefusalNumber>; 2] {
    let planes = samples.map(|sample| [sample]);
    let lent = planes.each_ref().map(|plane| plane.as_slice());
    [forward_wrapped(settings, None, choices, lent).err(), inverse_wrapped(settings, None, choices, lent).err()]
}

/// Faults of all kinds, each repaired before the next: the tests come in the order 2, 5, 16, 6, 7, 8, 11.
#[test]
fn refusals_in_order() {
    let [zero, high] = [[0; 3], [0, 256, 0]];
    let mut told = Settings { width: 0, height: 2, depths: [8, 17, 7], transform: 4 };
    assert_eq!(call(told, &[13], high), [Some(2); 2]);
    told.width = 1;
    assert_eq!(call(told, &[13], high), [Some(5); 2]);
    told.depths = [8, 8, 7];
    assert_eq!(call(told, &[13], high), [Some(16); 2]);
    told.depths = [8; 3];
    assert_eq!(call(told, &[13], high), [Some(6); 2]);
    told.transform = 2;
    assert_eq!(call(told, &[0], high), [Some(7); 2]);
    assert_eq!(call(told, &[0, 13], high), [Some(7); 2]);
    assert_eq!(call(told, &[0, 12], high), [Some(8); 2]);
    told.height = 1;
    assert_eq!(call(told, &[0, 12], high), [Some(11); 2]);
    assert_eq!(call(told, &[0, 12], [0, 0, -1]), [Some(11); 2]);
    assert_eq!(call(told, &[0, 12], zero), [None; 2]);
    for depths in [[8, 7, 7], [7, 8, 7], [7, 7, 8], [2, 16, 9]] {
        assert_eq!(call(Settings { depths, ..told }, &[0, 0], zero), [Some(16); 2], "depths {depths:?}");
    }
}

/// B is 0 - 255 = -255, which the plain inverse refuses; kept modulo 256 it is 1.
#[test]
fn planes_that_only_the_wrapped_form_reaches() {
    let settings = Settings { width: 1, height: 1, depths: [8; 3], transform: 2 };
    let planes: [&[i32]; 3] = [&[0], &[0], &[255]];
    assert_eq!(inverse(settings, None, &[0; 2], planes), Err(12));
    assert_eq!(inverse_wrapped(settings, None, &[0; 2], planes), Ok([vec![0], vec![0], vec![1]]));
}
