//! Bands: the second paper's words on pictures of one column, and that banded pictures come back.

use super::depth_cases::{null_sets, pictures};
use super::*;

/// One column of three rows: R, G and B.
const COLUMN: [[i32; 3]; 3] = [[10, 20, 40], [100, 110, 121], [7, 9, 12]];

/// The calls there and back.
const PLAIN: [Call; 2] = [forward, inverse];
const WRAPPED: [Call; 2] = [forward_wrapped, inverse_wrapped];

/// What the column goes to; it must come back.
fn column([there, back]: [Call; 2], transform: u32, band_height: Option<u32>, sets: &[u8]) -> [Vec<i32>; 3] {
    let settings = Settings { width: 1, height: 3, depths: [8; 3], transform };
    let lent = COLUMN.each_ref().map(|plane| plane.as_slice());
    let finished = there(settings, band_height, sets, lent).unwrap();
    let picture = back(settings, band_height, sets, finished.each_ref().map(Vec::as_slice));
    assert_eq!(picture, Ok(COLUMN.map(|plane| plane.to_vec())));
    finished
}

/// RDgDb. C3: the mean of 100 and 110 is (2 × 210 + 2) / 4 = 105, and -7 + 105 = 98; the second row is skipped, 9;
/// -12 + 121 = 109. C2: -100 + 10 = -90; the mean of 10, 20 and 40 is (2 × 70 + 3) / 6 = 23, and -110 + 23 = -87; the
/// third row is skipped, 121. Wrapped, -90 and -87 are 166 and 169.
#[test]
fn bands_of_one_row() {
    let sets = [1, 0, 12, 1, 0, 12];
    assert_eq!(column(PLAIN, 2, Some(1), &sets), [[10, 20, 40], [-90, -87, 121], [98, 9, 109]]);
    assert_eq!(column(WRAPPED, 2, Some(1), &sets), [[10, 20, 40], [166, 169, 121], [98, 9, 109]]);
}

/// RDgDb, the last band shorter. C3: 98 as above; the second row's window reads across the edge, so the mean is that of
/// 100, 110 and 121, (2 × 331 + 3) / 6 = 110, and -9 + 110 = 101, where the rows of its band alone would give -9 + 105;
/// the third row is skipped, 12. C2: two rows are skipped, 100 and 110; the third row's window reads across the edge
/// too: the mean of 20 and 40 is (2 × 60 + 2) / 4 = 30, and -121 + 30 = -91. Wrapped, -91 is 165.
#[test]
fn bands_of_two_rows() {
    let sets = [1, 12, 12, 1];
    assert_eq!(column(PLAIN, 2, Some(2), &sets), [[10, 20, 40], [100, 110, -91], [98, 101, 12]]);
    assert_eq!(column(WRAPPED, 2, Some(2), &sets), [[10, 20, 40], [100, 110, 165], [98, 101, 12]]);
}

/// LDgEb. C2: -100 + 10 = -90, -110 + 20 = -90, -121 + 40 = -81. C1: the mean of -90 and -90 is -90, and 10 + 45 = 55;
/// the mean of -90, -90 and -81 is (2 × -261 + 3) / 6 = -86.5, down to -87, its half -43.5, down to -44, and 20 + 44 =
/// 64, where the third row's 121 from before the first step would give a mean of -20 and 20 + 10; the third row is
/// skipped, 40. C3: 7 - 55 = -48, 9 - 64 = -55; the mean of 64 and 40 is (2 × 104 + 2) / 4 = 52, and 12 - 52 = -40,
/// where the second row's 20 from before the second step would give 12 - 30.
#[test]
fn each_step_covers_the_whole_picture() {
    let finished = column(PLAIN, 3, Some(2), &[0, 1, 0, 0, 12, 1]);
    assert_eq!(finished, [[55, 64, 40], [-90, -90, -81], [-48, -55, -40]]);
}

/// RCT. C1: -90, -90, -81. C3: -93, -101, -109. C2: both places are null, 100; 110 + -101/4 = 110 - 26 = 84;
/// 121 + -81/4 = 121 - 21 = 100. Wrapped, C1 is 166, 166, 175 and C3 163, 155, 147; C2: 100, 110 + 155/4 = 148,
/// 121 + 175/4 = 164.
#[test]
fn third_step_skipped_in_one_row() {
    let sets = [0, 0, 12, 12, 0, 0, 12, 0, 0, 0, 0, 12];
    assert_eq!(column(PLAIN, 0, Some(1), &sets), [[-90, -90, -81], [100, 84, 100], [-93, -101, -109]]);
    assert_eq!(column(WRAPPED, 0, Some(1), &sets), [[166, 166, 175], [100, 148, 164], [163, 155, 147]]);
}

/// RDgDb, a mask between two rows with filter 1. C3: 98 as above; 9; the mean of 110 and 121 is (2 × 231 + 2) / 4 =
/// 116, and -12 + 116 = 104. C2: the mean of 10 and 20 is (2 × 30 + 2) / 4 = 15, and -100 + 15 = -85; 110; -91 as
/// above.
#[test]
fn mask_between_two_bands() {
    let finished = column(PLAIN, 2, Some(1), &[1, 1, 12, 12, 1, 1]);
    assert_eq!(finished, [[10, 20, 40], [-85, 110, -91], [98, 9, 104]]);
    for calls in [PLAIN, WRAPPED] {
        for transform in 0..TRANSFORMS {
            let sets = [1, 12, 1].map(|filter| vec![filter; places(transform)]).concat();
            let finished = column(calls, transform, Some(1), &sets);
            let row = |row: usize| finished.each_ref().map(|plane| plane[row]);
            assert_eq!(row(1), [20, 110, 9]);
            assert!(row(0) != [10, 100, 7] && row(2) != [40, 121, 12]);
        }
    }
}

/// A band as high as the picture, and equal sets, do what no bands do.
#[test]
fn no_edge_between_equal_sets() {
    for transform in 0..TRANSFORMS {
        for set in null_sets(transform, 3) {
            for calls in [PLAIN, WRAPPED] {
                let without = column(calls, transform, None, &set);
                for (rows, bands) in [(3, 1), (2, 2), (1, 3)] {
                    assert_eq!(column(calls, transform, Some(rows), &set.repeat(bands)), without, "{set:?}");
                }
            }
        }
    }
}

/// All pictures of two rows, each a band, keep the ranges and come back.
fn come_back(form: Form, transform: u32, filters: &[u8], ranges: [Interval; 3]) {
    for picture in pictures([2; 3], 2) {
        let finished = run(form, transform, 1, 2, Some(1), filters, picture.clone());
        for (plane, range) in finished.iter().zip(ranges) {
            assert!(plane.iter().all(|&number| range.contains(number)), "filters {filters:?}");
        }
        assert_eq!(undo(form, transform, 1, 2, Some(1), filters, finished), picture);
    }
}

/// With every set of null places in the first row and every set in the second.
#[test]
fn two_rows_come_back() {
    for transform in 0..TRANSFORMS {
        for top in null_sets(transform, 1) {
            for bottom in null_sets(transform, 1) {
                let filters = [&top[..], &bottom].concat();
                come_back(Form::Plain, transform, &filters, ranges([2; 3], transform));
                come_back(Form::Wrapped(2), transform, &filters, [Interval { low: 0, high: 3 }; 3]);
            }
        }
    }
}

/// The numbers that the four calls answer where each plane is zeros of that length but for its last number.
fn answers(settings: Settings, rows: u32, choices: &[u8], length: usize, last: i32) -> [u32; 4] {
    let mut plane = vec![0; length];
    plane[length - 1] = last;
    [forward, inverse, forward_wrapped, inverse_wrapped]
        .map(|call| call(settings, Some(rows), choices, [&plane, &plane, &plane]).err().unwrap_or(0))
}

/// Seven rows in bands of 1 to 7: 7, 4, 3, 2, 2, 2 and 1 of them.
#[test]
fn numbers_of_choices() {
    for transform in 0..TRANSFORMS {
        let settings = Settings { width: 1, height: 7, depths: [8; 3], transform };
        for count in 0..=40 {
            let choices = vec![0; count];
            for (rows, bands) in (1..).zip([7, 4, 3, 2, 2, 2, 1]) {
                let number = if count == bands * places(transform) { 0 } else { 7 };
                assert_eq!(answers(settings, rows, &choices, 7, 0), [number; 4], "rows {rows} count {count}");
            }
            for rows in [0, 8, 9, u32::MAX] {
                assert_eq!(answers(settings, rows, &choices, 7, 0), [17; 4], "rows {rows} count {count}");
            }
        }
    }
}

/// Faults of all kinds, each repaired before the next: the tests come in the order 2, 5, 16, 6, 17, 7, 8 and 11 or 12.
#[test]
fn refusals_in_order() {
    let mut told = Settings { width: 0, height: 3, depths: [8, 17, 7], transform: 2 };
    assert_eq!(answers(told, 4, &[13], 2, 256), [2; 4]);
    told.width = 1;
    assert_eq!(answers(told, 4, &[13], 2, 256), [5; 4]);
    told.depths = [8, 8, 7];
    assert_eq!(answers(told, 4, &[13], 2, 256), [17, 17, 16, 16]);
    told.transform = 4;
    assert_eq!(answers(told, 4, &[13], 2, 256), [6, 6, 16, 16]);
    told.depths = [8; 3];
    assert_eq!(answers(told, 4, &[13], 2, 256), [6; 4]);
    told.transform = 2;
    assert_eq!(answers(told, 4, &[13], 2, 256), [17; 4]);
    assert_eq!(answers(told, 0, &[13], 2, 256), [17; 4]);
    assert_eq!(answers(told, 1, &[0; 5], 2, 256), [7; 4]);
    assert_eq!(answers(told, 1, &[0, 0, 0, 0, 0, 13], 2, 256), [7; 4]);
    assert_eq!(answers(told, 1, &[0; 6], 2, 256), [8; 4]);
    assert_eq!(answers(told, 1, &[0; 6], 3, 256), [11, 12, 11, 11]);
    assert_eq!(answers(told, 1, &[0; 6], 3, 0), [0; 4]);
}
