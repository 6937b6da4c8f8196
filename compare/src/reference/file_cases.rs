//! Files: pixmaps with one byte and two bytes a sample, and planes as graymaps, as bytes written by hand.

use super::*;

#[test]
fn headers_of_pixmaps() {
    let size = |file: &str| pixmap_header(file.as_bytes()).map(|header| (header.width, header.height, header.depth));
    assert_eq!(size("P6 1 1 3 abc"), Ok((1, 1, 2)));
    assert_eq!(size("P6\t\n0001\x0b1\x0c00255\rabc"), Ok((1, 1, 8)));
    assert_eq!(size("P6 #\n##x\r 1\n#1\n1 #\r3 abc"), Ok((1, 1, 2)));
    assert_eq!(size("P6#\n1 1 3 abc"), Err(1));
    assert_eq!(size("P6 1#\n1 3 abc"), Err(1));
    assert_eq!(size("P6 1 1 3#\nabc"), Err(1));
    assert_eq!(size("P6 1 1 3 #\nabc"), Err(4));
    assert_eq!(size("P6 #1 1 3 abc"), Err(1));
    assert_eq!(size("p6 1 1 3 abc"), Err(1));
    assert_eq!(size("P6 1 1 3"), Err(1));
    assert_eq!(size("P6 8193 1 3 "), Err(2));
    assert_eq!(size("P6 18446744073709551617 1 3 abc"), Err(2));
    assert_eq!(size("P6 1 1 18446744073709551619 abc"), Err(3));
    assert_eq!(size("P6 0 1 0 "), Err(2));
    assert_eq!(size("P6 1 1 1 abc"), Err(3));
    assert_eq!(size("P6 1 1 3 abcd"), Err(4));
    assert_eq!(pixmap_planes(b"P6 2 1 3 abcdef", [2, 2, 3]), Err(8));
    assert_eq!(pixmap_planes(b"P6 2 1 3 abcdef", [2; 3]), Ok([vec![97, 100], vec![98, 101], vec![99, 102]]));
}

/// From depth 9 on "two bytes a sample in that order", and the raster is twice as long.
#[test]
fn deep_pixmaps() {
    let pixel = |maxval: u32, raster: &[u8]| -> Result<(u32, [i32; 3]), RefusalNumber> {
        let file = [format!("P6 1 1 {maxval} ").as_bytes(), raster].concat();
        let planes = pixmap_planes(&file, [1; 3])?;
        Ok((pixmap_header(&file)?.depth, planes.map(|plane| plane[0])))
    };
    for depth in 2..=16 {
        let maxval = (1 << depth) - 1;
        for length in [0, 1, 2, 3, 4, 5, 6, 7, 12] {
            let right = if depth < 9 { 3 } else { 6 };
            let expected = if length == right { Ok((depth, [0; 3])) } else { Err(4) };
            assert_eq!(pixel(maxval, &vec![0; length]), expected, "depth {depth} length {length}");
        }
        assert_eq!(pixel(maxval - 1, &[0; 6]), Err(3));
        assert_eq!(pixel(maxval + 1, &[0; 6]), Err(3));
    }
    assert_eq!(pixel(65_535, b"\x00\xff\x01\x00\xff\xfe"), Ok((16, [255, 256, 65_534])));
    // 512 and more are above maxval and stand as they are.
    assert_eq!(pixel(511, b"\x01\xff\x02\x00\xff\xff"), Ok((9, [511, 512, 65_535])));
    let pixels = pixmap_planes(b"P6 2 1 4095 \x00\x01\x00\x02\x00\x03\x04\x00\x05\x00\x06\x00", [2; 3]);
    assert_eq!(pixels, Ok([vec![1, 1024], vec![2, 1280], vec![3, 1536]]));
}

/// The plane of the transform at the depths.
fn plane(depths: [u32; 3], transform: u32, plane: u32) -> FinishedPlane {
    FinishedPlane { depths, transform, plane }
}

/// The plane has this file, the file this plane; and a byte less of buffer, of the file or of the plane is refused.
fn same(of: FinishedPlane, width: u32, height: u32, samples: &[i32], file: &[u8]) {
    assert_eq!(graymap_file(width, height, of, samples, file.len()), Ok(file.to_vec()), "{of:?}");
    assert_eq!(graymap_file(width, height, of, samples, file.len() + 9), Ok(file.to_vec()));
    assert_eq!(graymap_file(width, height, of, samples, file.len() - 1), Err(14));
    let read = Graymap { width, height, samples: samples.to_vec() };
    assert_eq!(graymap_plane(of, file, samples.len()), Ok(read), "{of:?}");
    assert_eq!(graymap_plane(of, &file[..file.len() - 1], samples.len()), Err(4));
    assert_eq!(graymap_plane(of, file, samples.len() + 1), Err(8));
}

/// The first paper's pixel 10, 200, 60 at depth 8. The lowest numbers are -255, -128, -255; -255, -382, -319; 0, -255,
/// -255; -127, -255, -383. So plane 1 of RCT holds -190 + 255 = 65, plane 2 of YCoCg-R 165 + 382 = 547 = 2 × 256 + 35.
#[test]
fn graymaps_of_the_pixel() {
    let finished = [[-190, 117, -140], [-50, 165, 117], [10, -190, 140], [105, -190, -45]];
    let files: [[&[u8]; 3]; 4] = [
        [b"P5\n1 1\n510\n\x00\x41", b"P5\n1 1\n510\n\x00\xf5", b"P5\n1 1\n510\n\x00\x73"],
        [b"P5\n1 1\n510\n\x00\xcd", b"P5\n1 1\n765\n\x02\x23", b"P5\n1 1\n892\n\x01\xb4"],
        [b"P5\n1 1\n255\n\x0a", b"P5\n1 1\n510\n\x00\x41", b"P5\n1 1\n510\n\x01\x8b"],
        [b"P5\n1 1\n510\n\x00\xe8", b"P5\n1 1\n510\n\x00\x41", b"P5\n1 1\n765\n\x01\x52"],
    ];
    for (transform, (numbers, files)) in (0..).zip(finished.into_iter().zip(files)) {
        for (number, (sample, file)) in (1..).zip(numbers.into_iter().zip(files)) {
            same(plane([8; 3], transform, number), 1, 1, &[sample], file);
        }
    }
}

/// The lowest and the highest number where maxval is 94, 255 (once from 0 on, once with a lowest number of -64), 256 and
/// 65,535, and where it is just beyond: RCT's plane 2 at depths 3, 15 and 16 lies in -16,384 to 49,152.
#[test]
fn graymaps_at_limits() {
    same(plane([5, 6, 5], 0, 1), 2, 1, &[-63, 31], b"P5\n2 1\n94\n\x00\x5e");
    same(plane([8, 2, 16], 2, 1), 1, 2, &[255, 0], b"P5\n1 2\n255\n\xff\x00");
    same(plane([2, 7, 8], 0, 2), 2, 1, &[-64, 191], b"P5\n2 1\n255\n\x00\xff");
    same(plane([8, 7, 3], 0, 2), 3, 1, &[-64, 191, 192], b"P5\n3 1\n256\n\x00\x00\x00\xff\x01\x00");
    same(plane([2, 15, 16], 0, 2), 1, 2, &[-16_384, 49_151], b"P5\n1 2\n65535\n\x00\x00\xff\xff");
    same(plane([16; 3], 2, 1), 1, 2, &[65_535, 258], b"P5\n1 2\n65535\n\xff\xff\x01\x02");
    assert_eq!(graymap_file(1, 2, plane([3, 15, 16], 0, 2), &[0, 0], 99), Err(13));
    assert_eq!(graymap_plane(plane([3, 15, 16], 0, 2), b"P5 1 1 65536 ab", 1), Err(13));
}

/// Which planes no file can hold at equal depths; with no depth above 14 there are none.
#[test]
fn planes_too_wide() {
    for depth in 2..=16 {
        let wide = |transform, number| graymap_file(1, 1, plane([depth; 3], transform, number), &[0], 99) == Err(13);
        let planes = [0, 1, 2, 3].map(|transform| [1, 2, 3].map(|number| wide(transform, number)));
        let expected = match depth {
            16 => [[true; 3], [true; 3], [false, true, true], [true; 3]],
            15 => [[false; 3], [false, true, true], [false; 3], [false, false, true]],
            _ => [[false; 3]; 4],
        };
        assert_eq!(planes, expected, "depth {depth}");
    }
    for depths in all_depths().filter(|depths| depths.iter().all(|&depth| depth <= 14)) {
        let widest = (0..TRANSFORMS).flat_map(|transform| ranges(depths, transform)).map(Interval::width).max();
        assert!(widest <= Some(65_535), "depths {depths:?}");
    }
}

/// Headers of any layout, and each refusal of reading. RCT's plane 1 at depths 5, 6, 5 lies in -63 to 31.
#[test]
fn headers_of_graymaps() {
    let read = |file: &[u8]| graymap_plane(plane([5, 6, 5], 0, 1), file, 2).map(|read| read.samples);
    assert_eq!(read(b"P5 2 1 94 \x00\x5e"), Ok(vec![-63, 31]));
    assert_eq!(read(b"P5\t#\n##x\r 0002\x0b1\x0c #\n00094\r\x3f\x20"), Ok(vec![0, -31]));
    assert_eq!(read(b"P6 2 1 94 ab"), Err(1));
    assert_eq!(read(b"P5 2 1 94#\nab"), Err(1));
    assert_eq!(read(b"P5 2 1 94 #\nab"), Err(4));
    assert_eq!(read(b"P5 0 1 95 "), Err(2));
    assert_eq!(read(b"P5 2 8193 95 "), Err(2));
    assert_eq!(read(b"P5 2 1 93 a"), Err(3));
    assert_eq!(read(b"P5 2 1 65630 a"), Err(3));
    assert_eq!(read(b"P5 2 1 4294967390 a"), Err(3));
    assert_eq!(read(b"P5 2 1 94 a"), Err(4));
    assert_eq!(read(b"P5 2 1 94 abcd"), Err(4));
    assert_eq!(read(b"P5 1 1 94 \x5f"), Err(8));
    assert_eq!(read(b"P5 1 2 94 \x00\x5f"), Err(12));
    assert_eq!(read(b"P5 1 2 94 \xff\x00"), Err(12));
    // Plane 2 of RDgDb at depth 8: two bytes, and 510 is the highest.
    let deep = |file: &[u8]| graymap_plane(plane([8; 3], 2, 2), file, 1).map(|read| read.samples);
    assert_eq!(deep(b"P5 1 1 510 \x01\xfe"), Ok(vec![255]));
    assert_eq!(deep(b"P5 1 1 510 \x01\xff"), Err(12));
    assert_eq!(deep(b"P5 1 1 510 \xff"), Err(4));
}

/// Faults of all kinds, each repaired before the next: writing tests 2, 5, 6, 8, 13, 14, 12.
#[test]
fn refusals_of_writing() {
    let write = |width, depth, transform, number, samples: &[i32], buffer| {
        graymap_file(width, 1, plane([8, depth, 8], transform, number), samples, buffer).err().unwrap_or(0)
    };
    assert_eq!(write(0, 17, 4, 0, &[999; 3], 12), 2);
    assert_eq!(write(2, 17, 4, 0, &[999; 3], 12), 5);
    assert_eq!(write(2, 16, 4, 3, &[999; 3], 12), 6);
    assert_eq!(write(2, 16, 0, 0, &[999; 3], 12), 6);
    assert_eq!(write(2, 16, 0, 4, &[999; 3], 12), 6);
    assert_eq!(write(2, 16, 0, 3, &[999; 3], 12), 8);
    assert_eq!(write(2, 16, 0, 3, &[999; 2], 12), 13);
    assert_eq!(write(2, 8, 0, 3, &[999; 2], 14), 14);
    assert_eq!(write(2, 8, 0, 3, &[255, 256], 15), 12);
    assert_eq!(write(2, 8, 0, 3, &[-256, 255], 15), 12);
    assert_eq!(write(2, 8, 0, 3, &[-255, 255], 15), 0);
}

/// The same for reading: 5, 6, 13, 1, 2, 3, 4, 8, 12.
#[test]
fn refusals_of_reading() {
    let read = |depth, transform, number, file: &[u8], length| {
        graymap_plane(plane([8, depth, 8], transform, number), file, length).err().unwrap_or(0)
    };
    assert_eq!(read(17, 4, 0, b"", 2), 5);
    assert_eq!(read(16, 4, 3, b"", 2), 6);
    assert_eq!(read(16, 0, 0, b"", 2), 6);
    assert_eq!(read(16, 0, 4, b"", 2), 6);
    assert_eq!(read(16, 0, 3, b"", 2), 13);
    assert_eq!(read(8, 0, 3, b"P5 1 0 511", 2), 1);
    assert_eq!(read(8, 0, 3, b"P5 1 0 511 \x02", 2), 2);
    assert_eq!(read(8, 0, 3, b"P5 1 1 511 \x02", 2), 3);
    assert_eq!(read(8, 0, 3, b"P5 1 1 510 \x02", 2), 4);
    assert_eq!(read(8, 0, 3, b"P5 1 1 510 \x02\x00", 2), 8);
    assert_eq!(read(8, 0, 3, b"P5 1 1 510 \x02\x00", 1), 12);
    assert_eq!(read(8, 0, 3, b"P5 1 1 510 \x01\xfe", 1), 0);
}

/// "Reading what we write restores the plane", at all depths, the lowest and the highest number and 0.
#[test]
fn every_plane_comes_back() {
    for depths in all_depths() {
        for (transform, number) in (0..TRANSFORMS).flat_map(|transform| [1, 2, 3].map(|number| (transform, number))) {
            let of = plane(depths, transform, number);
            let range = of.range().unwrap();
            let samples = [range.low as i32, 0, range.high as i32];
            match graymap_file(1, 3, of, &samples, usize::MAX) {
                Ok(file) => same(of, 1, 3, &samples, &file),
                Err(refusal) => assert_eq!((refusal, range.width() > 65_535), (13, true), "{of:?}"),
            }
        }
    }
}
