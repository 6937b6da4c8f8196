//! The papers' cases and traps, and facts that any implementation of them has.

use super::*;

const PIXEL: [i64; 3] = [10, 200, 60];
const DEPTH_8: Settings = Settings { width: 1, height: 1, depths: [8; 3], transform: 0 };

fn pixel(transform: u32, filters: &[u8]) -> [i64; 3] {
    run(Form::Plain, transform, 1, 1, None, filters, PIXEL.map(|sample| vec![sample])).map(|plane| plane[0])
}

/// The whole plane, filtered.
fn filtered(plane: &[i64], width: usize, height: usize, filter: u8) -> Plane {
    (0..width * height).map(|i| filtered_at(plane, width, height, filter, i % width, i / width)).collect()
}

#[test]
fn one_pixel() {
    assert_eq!(pixel(0, &[0; 4]), [-190, 117, -140]);
    assert_eq!(pixel(1, &[0; 4]), [-50, 165, 117]);
    assert_eq!(pixel(2, &[0; 2]), [10, -190, 140]);
    assert_eq!(pixel(3, &[0; 3]), [105, -190, -45]);
}

/// Steps whose places are all null leave their planes unchanged; RCT's third step has two places.
#[test]
fn null_steps() {
    for transform in 0..TRANSFORMS {
        assert_eq!(pixel(transform, &vec![12; places(transform)]), PIXEL);
    }
    assert_eq!(pixel(2, &[12, 0]), [10, -190, 60]);
    assert_eq!(pixel(2, &[0, 12]), [10, 200, 140]);
    assert_eq!(pixel(3, &[12, 0, 0]), [-90, 200, 150]);
    assert_eq!(pixel(0, &[0, 0, 12, 0]), [-190, 165, -140]);
    assert_eq!(pixel(0, &[0, 0, 0, 12]), [-190, 152, -140]);
    assert_eq!(pixel(0, &[0, 0, 12, 12]), [-190, 200, -140]);
}

#[test]
fn two_pixels() {
    let planes = run(Form::Plain, 2, 2, 1, None, &[1, 1], [vec![10, 20], vec![100, 101], vec![7, 9]]);
    assert_eq!(planes, [vec![10, 20], vec![-85, -86], vec![94, 92]]);
}

#[test]
fn windows() {
    let mut plane = vec![0; 9];
    plane[4] = 9;
    assert_eq!(filtered(&plane, 3, 3, 1), [2, 2, 2, 2, 1, 2, 2, 2, 2]);
    assert_eq!(filtered_at(&plane, 3, 3, 2, 1, 1), 2);
    plane[4] = -9;
    assert_eq!(filtered_at(&plane, 3, 3, 1, 1, 0), -1);
    // A mean below zero is rounded down, not toward zero: (2 * -4 + 2) / 4 is -1.5.
    assert_eq!(filtered(&[-4, 0], 2, 1, 1), [-2, -2]);
    // One neighbour: weights 1024 and 1.
    assert_eq!(filtered(&[1000, 0], 2, 1, 11), [999, 1]);
    assert_eq!(filtered(&[5, -7, 0], 3, 1, 12), [0; 3]);
    assert_eq!(filtered(&[5, -7, 0], 1, 3, 0), [5, -7, 0]);
}

/// Planes of one number each, within the ranges of YCoCg-R at depth 16. The last step back filters plane 3 as it then is,
/// and doubled and with the weights added the sum of a whole window there exceeds 29 signed bits, which end at 2^28 - 1.
#[test]
fn largest_window() {
    let planes = [-65535, -98302, 147453];
    for (number, range) in planes.into_iter().zip(ranges([16; 3], 1)) {
        assert!(range.contains(number));
    }
    let [_, _, plane] = undo(Form::Plain, 1, 3, 3, None, &[0; 4], planes.map(|number| vec![number; 9]));
    assert_eq!(plane, [229_372; 9]);
    let (sum, weights) = window(&plane, 3, 3, 11, 1, 1);
    assert_eq!(2 * sum + weights, 473_424_840);
}

#[test]
fn predictions() {
    assert_eq!([med(10, 20, 5), med(10, 20, 25), med(10, 20, 15)], [20, 10, 15]);
    // First row 7 9, second row 4 1: residuals 7, 9 - 7, 4 - 7, 1 - (4 + 9 - 7).
    let plane = [7, 9, 4, 1];
    assert_eq!([0, 1, 2, 3].map(|index| residual(&plane, 2, index)), [7, 2, -3, -5]);
}

#[test]
fn logarithms() {
    assert_eq!([1, 2, 3, 4096].map(logarithm), [0, 64, 101, 768]);
    for n in 1..=4096 {
        let close = 64.0 * (n as f64).log2();
        assert!((close - 1.001..=close + 0.001).contains(&f64::from(logarithm(n))), "L({n})");
    }
}

#[test]
fn counts() {
    // Residuals 0 0 0 1: counts 3 and 1.
    assert_eq!(plane_estimate(&[0, 0, 0, 1], 4), (209, 4));
    // t, N, and the index of the second and of the last counted sample.
    for (samples, counted, second, last) in [
        (4095, 4095, 1, 4094),
        (4096, 4096, 1, 4095),
        (4097, 4096, 1, 4095),
        (5000, 4096, 1, 4998),
        (8191, 4096, 1, 8189),
        (8192, 4096, 2, 8190),
        (8193, 4096, 2, 8190),
        (67_108_864, 4096, 16384, 67_092_480),
    ] {
        let indices: Vec<usize> = counted_indices(samples).collect();
        assert_eq!((indices.len(), indices[1], indices[counted - 1]), (counted, second, last));
        // Rounded down: one index more would be beyond i × t / N.
        let down = |(i, &index): (usize, &usize)| index * counted <= i * samples && i * samples < (index + 1) * counted;
        assert!(indices.iter().enumerate().all(down));
    }
    assert_eq!(counted_indices(1).collect::<Vec<_>>(), [0]);
    assert_eq!(counted_indices(5000).take(6).collect::<Vec<_>>(), [0, 1, 2, 3, 4, 6]);
}

/// 4,097 pixels of one colour: all residuals but the first are 0, so 4,096 counted samples give
/// 4096 × 768 - 4095 × 767 for a plane; 2,049 of them, as the first rule had it, would give 704.
#[test]
fn one_colour() {
    for width in [1, 17, 241, 4097] {
        assert_eq!(plane_estimate(&[60; 4097], width), (4863, 4096));
    }
}

#[test]
fn planes_that_no_picture_reaches() {
    let back = |transform, filters: &[u8], planes: [i32; 3]| {
        let planes = planes.map(|sample| [sample]);
        inverse(Settings { transform, ..DEPTH_8 }, None, filters, planes.each_ref().map(|plane| plane.as_slice()))
    };
    assert_eq!(back(2, &[0; 2], [0, 0, 255]), Err(12));
    assert_eq!(back(0, &[0; 4], [255, -128, 255]), Err(12));
    assert_eq!(back(1, &[0; 4], [-50, 165, 117]), Ok([vec![10], vec![200], vec![60]]));
    assert_eq!(back(1, &[0; 4], [i32::MIN, i32::MAX, i32::MIN]), Err(12));
}

#[test]
fn refusals() {
    let call = |width, height, depth, sample: i32| {
        let plane = vec![sample; width as usize * height as usize];
        let settings = Settings { width, height, depths: [depth; 3], transform: 2 };
        forward(settings, None, &[0; 2], [&plane, &plane, &plane]).err()
    };
    assert_eq!(call(8192, 1, 8, 0), None);
    assert_eq!(call(8193, 1, 8, 0), Some(2));
    assert_eq!([1, 2, 16, 17].map(|depth| call(1, 1, depth, 0)), [Some(5), None, None, Some(5)]);
    assert_eq!([-1, 0, 255, 256].map(|sample| call(1, 1, 8, sample)), [Some(11), None, None, Some(11)]);
}

/// Two pixels at depth 8 under RDgDb need 1,021 counters. In place 9 concerns them alone, and comes after 8 and before 10
/// and 11.
#[test]
fn counters_alone() {
    let settings = Settings { width: 2, transform: 2, ..DEPTH_8 };
    let (planes, high) = ([&[10, 20][..], &[100, 101], &[7, 9]], [256; 2]);
    let ample = Scratch { trial: [2; 3], counters: 1021 };
    let first = search(settings, 2, 2, planes, ample);
    assert!(first.is_ok());
    assert_eq!(search_in_place(settings, 2, 2, planes, 1021), first);
    assert_eq!(estimate_in_place(settings, &[1, 1], planes, 1021), estimate(settings, &[1, 1], planes, ample));
    assert_eq!(search(settings, 2, 2, planes, Scratch { trial: [2, 2, 1], ..ample }), Err(9));
    for (planes, rounds, counters, refusal) in [
        ([planes[0], &[], planes[2]], 0, 1020, 8),
        ([planes[0], &high, planes[2]], 0, 1020, 9),
        ([planes[0], &high, planes[2]], 0, 1021, 10),
        ([planes[0], &high, planes[2]], 4, 1021, 11),
    ] {
        assert_eq!(search_in_place(settings, rounds, 2, planes, counters), Err(refusal));
        let estimated = estimate_in_place(settings, &[1, 1], planes, counters);
        assert_eq!(estimated, Err(if refusal == 10 { 11 } else { refusal }));
    }
}

#[test]
fn example_report() {
    let text = "transform filters estimate samples each rest\n\
                RCT 0,0,0,0 256 2 128 0\n\
                YCoCg-R 0,0,0,0 384 2 192 0\n\
                RDgDb 0,0 256 2 128 0\n\
                LDgEb 0,0,0 256 2 128 0\n";
    assert_eq!(report(b"P6\n2 1\n255\n\x0a\x0a\x3c\x0a\x0a\x3c"), text);
}

#[test]
fn refused_reports() {
    let file = |header: &str, raster: usize| [header.as_bytes(), &vec![0; raster]].concat();
    assert_eq!(report(b""), "refused 1\n");
    assert_eq!(report(&file("P6 0 1 255 ", 0)), "refused 2\n");
    assert_eq!(report(&file("P6 1 1 256 ", 3)), "refused 3\n");
    assert_eq!(report(&file("P6 1 1 255 ", 4)), "refused 4\n");
    assert_eq!(report(&file("P6 1 1 511 ", 3)), "refused 4\n");
    assert_eq!(report(&file("P6 2049 1 255 ", 3 * 2049)), "refused 9\n");
    assert_eq!(report(&file("", 8192)), "refused 1\n");
    assert_eq!(report(&file("", 8193)), "refused 9\n");
    assert_eq!(report(&[file("P6 1 1 3 ", 2), vec![4]].concat()), "refused 11\n");
}

/// RCT comes first and needs 8 × 256 - 3 counters at depth 9; the samples are tested after them.
#[test]
fn reports_of_deep_pictures() {
    for maxval in (9..=16).map(|depth| (1 << depth) - 1) {
        let file = format!("P6 1 1 {maxval} \0\0\0\0\0\0");
        assert_eq!(report(file.as_bytes()), "refused 9\n");
    }
    assert_eq!(report(b"P6 1 1 511 \xff\xff\0\0\0\0"), "refused 9\n");
}
