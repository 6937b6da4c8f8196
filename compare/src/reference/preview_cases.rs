//! Preview pixels: values by hand, and that the way back is the search over all pixels.

use super::*;
use std::collections::HashMap;

const PIXEL: [i32; 3] = [10, 200, 60];

/// The pixel in both spaces, as floats.
fn floats(depth: u32, samples: [i32; 3]) -> Result<[[f64; 3]; 2], RefusalNumber> {
    let [hvsct, ycocg] = SPACES.map(|space| preview(space, depth, samples));
    Ok([hvsct?, ycocg?].map(|quarters| quarters.map(|number| number as f64 / 4.0)))
}

/// Y (10 + 200)/2, Cd (10 - 200)/2, Ce (60 - 105)/2; Y 70/4 + 100, Co (10 - 60)/2, Cg 100 - 70/4.
#[test]
fn one_pixel() {
    assert_eq!(preview(Space::Hvsct, 8, PIXEL), Ok([420, -380, -90]));
    assert_eq!(preview(Space::Ycocg, 8, PIXEL), Ok([470, -100, 330]));
    assert_eq!(floats(8, PIXEL), Ok([[105.0, -95.0, -22.5], [117.5, -25.0, 82.5]]));
    assert_eq!(preview_back(8, 1, [105.0, -95.0, -22.5]), Ok(PIXEL));
    assert_eq!(preview_back(8, 2, [117.5, -25.0, 82.5]), Ok(PIXEL));
}

#[test]
fn black_white_and_primaries() {
    assert_eq!(floats(8, [0; 3]), Ok([[0.0; 3]; 2]));
    assert_eq!(floats(8, [255; 3]), Ok([[255.0, 0.0, 0.0]; 2]));
    assert_eq!(floats(8, [255, 0, 0]), Ok([[127.5, 127.5, -63.75], [63.75, 127.5, -63.75]]));
    assert_eq!(floats(8, [0, 255, 0]), Ok([[127.5, -127.5, -63.75], [127.5, 0.0, 127.5]]));
    assert_eq!(floats(8, [0, 0, 255]), Ok([[0.0, 0.0, 127.5], [63.75, -127.5, -63.75]]));
}

/// The inverse matrices of equations 6 and 4, which nothing here goes back by, are those of the matrices.
#[test]
fn inverse_matrices() {
    let inverses = [[[1, 1, 0], [1, -1, 0], [1, 0, 2]], [[1, 1, -1], [1, 0, 1], [1, -1, -1]]];
    for (space, inverse) in SPACES.into_iter().zip(inverses) {
        for samples in [[1, 0, 0], [0, 1, 0], [0, 0, 1]] {
            let [v1, v2, v3] = space.quarters(samples);
            let back = inverse.map(|[of_v1, of_v2, of_v3]| of_v1 * v1 + of_v2 * v2 + of_v3 * v3);
            assert_eq!(back, samples.map(|sample| 4 * sample), "{space:?}");
        }
    }
}

/// Every three eighths in a box that holds the floats of all pixels: found among the pixels, else refused.
#[test]
fn back_is_a_search() {
    for (space, depth) in SPACES.into_iter().flat_map(|space| [2, 3].map(|depth| (space, depth))) {
        let samples = |code: i32| [code >> (2 * depth), code >> depth & ((1 << depth) - 1), code & ((1 << depth) - 1)];
        let pixels = (0..1 << (3 * depth)).map(samples);
        let eighths = |pixel| preview(space, depth, pixel).unwrap().map(|quarters| 2 * quarters);
        let found: HashMap<[i64; 3], [i32; 3]> = pixels.map(|pixel| (eighths(pixel), pixel)).collect();
        assert_eq!(found.len(), 1 << (3 * depth), "no two pixels have the same floats");
        let most = (8 << depth) + 3;
        for v1 in -3..most {
            for v2 in -most / 2..most / 2 {
                for v3 in -most / 2..most / 2 {
                    let floats = [v1, v2, v3].map(|eighths| eighths as f64 / 8.0);
                    let expected = found.get(&[v1, v2, v3]).copied().ok_or(15);
                    assert_eq!(preview_back(depth, space.number(), floats), expected, "{space:?} {floats:?}");
                }
            }
        }
    }
}

#[test]
fn floats_in_quarters() {
    for (float, number) in [
        (0.0, 0),
        (-0.0, 0),
        (0.25, 1),
        (-0.75, -3),
        (1.0, 4),
        (-63.75, -255),
        (65_535.0, 262_140),
        (2f64.powi(53), 1 << 55),
        (2f64.powi(60), 1 << 62),
        (2f64.powi(61).next_down(), i64::MAX - 1023),
    ] {
        assert_eq!((quarters(float), quarters(-float)), (Some(number), Some(-number)), "{float}");
    }
    let close = [0.25, 1.0, 105.0, 65_535.0].map(|float: f64| [float.next_up(), float.next_down()]);
    let small = [0.125, 0.3, f64::MIN_POSITIVE, 5e-324, 1e-300];
    let large = [2f64.powi(61), 2f64.powi(64), 1e308, f64::MAX, f64::INFINITY, f64::NAN];
    for float in close.into_iter().flatten().chain(small).chain(large) {
        assert_eq!((quarters(float), quarters(-float)), (None, None), "{float}");
    }
}

/// 5, then 11 or 15.
#[test]
fn refusals_in_order() {
    for depth in [0, 1, 17, u32::MAX] {
        assert_eq!(SPACES.map(|space| preview(space, depth, [-1, 0, 0])), [Err(5); 2]);
        assert_eq!([0, 1, 2, 7].map(|space| preview_back(depth, space, [f64::NAN; 3])), [Err(5); 4]);
    }
    for samples in [[-1, 0, 0], [0, 4, 0], [0, 0, i32::MAX], [i32::MIN, 0, 0]] {
        assert_eq!(SPACES.map(|space| preview(space, 2, samples)), [Err(11); 2], "{samples:?}");
    }
    assert_eq!([0, 1, 2, 3, u32::MAX].map(|space| preview_back(2, space, [0.25, 0.0, 0.0])), [Err(15); 5]);
    assert_eq!([0, 3, 257, u32::MAX].map(|space| preview_back(2, space, [0.0; 3])), [Err(15); 4]);
    assert_eq!([1, 2].map(|space| preview_back(2, space, [0.0, -0.0, 0.0])), [Ok([0; 3]); 2]);
    // White of depth 3.
    assert_eq!([1, 2].map(|space| preview_back(2, space, [7.0, 0.0, 0.0])), [Err(15); 2]);
    assert_eq!([1, 2].map(|space| preview_back(3, space, [7.0, 0.0, 0.0])), [Ok([7; 3]); 2]);
}
