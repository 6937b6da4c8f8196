//! Ranges, refusals and pictures at three depths.

use super::*;

const TEXTURE: [u32; 3] = [5, 6, 5];

/// The ranges as pairs.
fn ends(depths: [u32; 3], transform: u32) -> [(i64, i64); 3] {
    ranges(depths, transform).map(|range| (range.low, range.high))
}

/// The ranges of all transforms, by number.
fn all_ends(depths: [u32; 3]) -> [[(i64, i64); 3]; 4] {
    [0, 1, 2, 3].map(|transform| ends(depths, transform))
}

fn all_counters(depths: [u32; 3]) -> [usize; 4] {
    [0, 1, 2, 3].map(|transform| counters(depths, transform))
}

#[test]
fn ranges_at_depth_8() {
    assert_eq!(ends([8; 3], 0), [(-255, 255), (-128, 382), (-255, 255)]);
    assert_eq!(ends([8; 3], 1), [(-255, 255), (-382, 383), (-319, 573)]);
    assert_eq!(ends([8; 3], 2), [(0, 255), (-255, 255), (-255, 255)]);
    assert_eq!(ends([8; 3], 3), [(-127, 383), (-255, 255), (-383, 382)]);
}

/// Equal depths give the table of the first paper.
#[test]
fn ranges_at_equal_depths() {
    for depth in 2..=16 {
        let m = (1 << depth) - 1;
        let h = 1 << (depth - 1);
        let q = 1 << (depth - 2);
        let table = [
            [(-m, m), (-h, 3 * h - 2), (-m, m)],
            [(-m, m), (-(3 * h - 2), 3 * h - 1), (-(5 * q - 1), 9 * q - 3)],
            [(0, m), (-m, m), (-m, m)],
            [(-(h - 1), 3 * h - 1), (-m, m), (-(3 * h - 1), 3 * h - 2)],
        ];
        assert_eq!(all_ends([depth; 3]), table, "depth {depth}");
    }
}

#[test]
fn ranges_at_unequal_depths() {
    let textures = [
        [(-63, 31), (-32, 78), (-63, 31)],
        [(-31, 31), (-46, 79), (-39, 85)],
        [(0, 31), (-63, 63), (-31, 63)],
        [(-31, 63), (-63, 63), (-63, 62)],
    ];
    assert_eq!(all_ends(TEXTURE), textures);
    let far_apart = [
        [(-3, 65535), (-2, 16514), (-3, 511)],
        [(-511, 65535), (-33278, 259), (-16895, 33407)],
        [(0, 65535), (-3, 65535), (-511, 511)],
        [(-32767, 65537), (-3, 65535), (-65537, 33278)],
    ];
    assert_eq!(all_ends([16, 2, 9]), far_apart);
}

/// No range exceeds the one at 16 bits for all planes.
#[test]
fn ranges_within_the_deepest() {
    for depths in all_depths() {
        for transform in 0..TRANSFORMS {
            for (range, deepest) in ranges(depths, transform).into_iter().zip(ranges([16; 3], transform)) {
                assert!(deepest.contains(range.low) && deepest.contains(range.high), "depths {depths:?}");
            }
        }
    }
}

#[test]
fn counters_needed() {
    assert_eq!(all_counters([8; 3]), [1021, 1785, 1021, 1531]);
    assert_eq!(all_counters([16; 3]), [262_141, 458_745, 262_141, 393_211]);
    assert_eq!(all_counters(TEXTURE), [221, 251, 253, 253]);
    assert_eq!(all_counters([16, 2, 9]), [131_077, 132_093, 131_077, 197_631]);
    assert_eq!(counters(TEXTURE, 4), 0);
    for plane in 0..3 {
        for depth in [0, 1, 17, u32::MAX] {
            let mut depths = TEXTURE;
            depths[plane] = depth;
            assert_eq!(all_counters(depths), [0; 4], "depths {depths:?}");
        }
    }
}

/// One pixel forward, or back, under RDgDb with filters 0.
fn pixel(call: Call, depths: [u32; 3], samples: [i32; 3]) -> Result<[i32; 3], RefusalNumber> {
    let settings = Settings { width: 1, height: 1, depths, transform: 2 };
    let planes = samples.map(|sample| [sample]);
    let after = call(settings, None, &[0; 2], planes.each_ref().map(|plane| plane.as_slice()))?;
    Ok(after.map(|plane| plane[0]))
}

#[test]
fn refused_depths() {
    for depths in [[1, 6, 5], [5, 1, 5], [5, 6, 1], [17, 6, 5], [5, 17, 5], [5, 6, 17], [0, 2, u32::MAX]] {
        assert_eq!(pixel(forward, depths, [0; 3]), Err(5), "depths {depths:?}");
        assert_eq!(pixel(inverse, depths, [0; 3]), Err(5), "depths {depths:?}");
    }
    for depths in [TEXTURE, [2, 16, 2], [16, 2, 16]] {
        assert_eq!(pixel(forward, depths, [1, 1, 1]), Ok([1, 0, 0]), "depths {depths:?}");
    }
}

#[test]
fn samples_past_their_planes_depth() {
    assert_eq!(pixel(forward, TEXTURE, [31, 63, 31]), Ok([31, -32, 32]));
    assert_eq!(pixel(forward, TEXTURE, [0, 32, 0]), Ok([0, -32, 32]));
    for samples in [[32, 0, 0], [0, 64, 0], [0, 0, 32], [-1, 0, 0], [0, -1, 0], [0, 0, -1]] {
        assert_eq!(pixel(forward, TEXTURE, samples), Err(11), "samples {samples:?}");
    }
}

/// A picture within another's depths but not its own is none: here B is 40.
#[test]
fn planes_of_a_picture_past_its_depths() {
    assert_eq!(pixel(inverse, TEXTURE, [10, -10, -20]), Err(12));
    assert_eq!(pixel(inverse, [6; 3], [10, -10, -20]), Ok([10, 20, 40]));
    assert_eq!(pixel(inverse, [5, 6, 6], [10, -10, -20]), Ok([10, 20, 40]));
}

/// Every picture of `samples` pixels.
pub fn pictures(depths: [u32; 3], samples: u32) -> impl Iterator<Item = Planes> {
    let bits: u32 = depths.iter().map(|depth| depth * samples).sum();
    (0..1i64 << bits).map(move |code| {
        let mut rest = code;
        let mut sample = |depth: u32| {
            let low = rest % (1i64 << depth);
            rest >>= depth;
            low
        };
        depths.map(|depth| (0..samples).map(|_| sample(depth)).collect())
    })
}

/// All pictures of `samples` pixels in a row keep the ranges and come back.
fn come_back(depths: [u32; 3], samples: u32, transform: u32, filters: &[u8]) {
    let width = samples as usize;
    for picture in pictures(depths, samples) {
        let finished = run(Form::Plain, transform, width, 1, None, filters, picture.clone());
        for (plane, range) in finished.iter().zip(ranges(depths, transform)) {
            assert!(plane.iter().all(|&number| range.contains(number)), "depths {depths:?} filters {filters:?}");
        }
        assert_eq!(undo(Form::Plain, transform, width, 1, None, filters, finished), picture);
    }
}

/// Null at every set of the transform's places, `filter` at the others.
pub fn null_sets(transform: u32, filter: u8) -> impl Iterator<Item = Vec<u8>> {
    let places = places(transform);
    (0..1 << places).map(move |set| (0..places).map(|place| if set >> place & 1 == 1 { 12 } else { filter }).collect())
}

#[test]
fn one_pixel_comes_back() {
    for depths in all_depths().filter(|depths| depths.iter().all(|&depth| depth <= 4)) {
        for transform in 0..TRANSFORMS {
            null_sets(transform, 0).for_each(|filters| come_back(depths, 1, transform, &filters));
        }
    }
}

#[test]
fn two_pixels_come_back() {
    for transform in 0..TRANSFORMS {
        for filter in 0..=12 {
            come_back([2; 3], 2, transform, &vec![filter; places(transform)]);
        }
        for depths in [[2, 2, 3], [2, 3, 2], [3, 2, 2]] {
            null_sets(transform, 1).for_each(|filters| come_back(depths, 2, transform, &filters));
        }
    }
}
