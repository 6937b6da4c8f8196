//! Finished planes as graymaps, written and read back.

use crate::files::{anything, Reading, Writing};
use crate::random::{self, each_round, Random};
use crate::same::Case;
use compare::reference::{all_depths, sample_bytes, FinishedPlane, Settings, TRANSFORMS};

/// The three planes of the transform at the depths.
pub fn planes(depths: [u32; 3], transform: u32) -> [FinishedPlane; 3] {
    [1, 2, 3].map(|plane| FinishedPlane { depths, transform, plane })
}

/// Maxval, also where it is above 65,535.
pub fn maxval(of: FinishedPlane) -> u32 {
    of.range().unwrap().width() as u32
}

/// How long the file of so many samples is.
pub fn length(width: u32, height: u32, of: FinishedPlane) -> usize {
    let header = format!("P5\n{width} {height}\n{}\n", maxval(of));
    header.len() + width as usize * height as usize * sample_bytes(maxval(of))
}

/// A sample of a raster with so many bytes a sample.
pub fn raw(value: u32, bytes: usize) -> Vec<u8> {
    value.to_be_bytes()[4 - bytes..].to_vec()
}

/// Numbers of the plane's range, its ends among them.
pub fn samples(random: &mut Random, of: FinishedPlane, count: usize) -> Vec<i32> {
    let range = of.range().unwrap();
    let mut number = || match random.below(8) {
        0 => range.low,
        1 => range.high,
        _ => random.between(range.low, range.high),
    };
    (0..count).map(|_| number() as i32).collect()
}

/// The plane of the transform at depths with which files can hold it.
pub fn narrow_at(random: &mut Random, transform: u32, plane: usize) -> FinishedPlane {
    loop {
        let of = planes(random::depths(random), transform)[plane];
        if maxval(of) <= 65_535 {
            return of;
        }
    }
}

/// A plane of any kind that files can hold.
pub fn narrow(random: &mut Random) -> FinishedPlane {
    let (transform, plane) = (random.below(TRANSFORMS as usize), random.below(3));
    narrow_at(random, transform as u32, plane)
}

/// Writes the plane to a buffer that is exactly long enough, to a longer one and to one that is a byte short, and reads the
/// file back. The file, or none where the plane is refused with 13.
pub fn there_and_back(
    (width, height): (u32, u32),
    of: FinishedPlane,
    samples: &[i32],
    longer: usize,
    origin: &str,
) -> Option<Vec<u8>> {
    let length = length(width, height, of);
    let write = |room| {
        let (samples, buffer) = (samples.to_vec(), anything(room));
        Writing { width, height, of, samples, buffer, origin: origin.to_string() }.call()
    };
    if maxval(of) > 65_535 {
        assert_eq!([length, 0].map(|room| write(room).0.refusal), [13; 2], "{of:?}\n{origin}");
        return None;
    }
    let (written, file) = write(length);
    assert_eq!((written.refusal, written.length as usize), (0, length), "{of:?}\n{origin}");
    assert_eq!(write(length + longer).0, written);
    assert_eq!(write(length - 1).0.refusal, 14);
    let reading = Reading { of, file, beyond: Vec::new(), length: samples.len(), origin: origin.to_string() };
    let (read, plane) = reading.call();
    assert_eq!((read.refusal, read.width, read.height), (0, width, height), "{reading}");
    assert_eq!(plane, samples, "{reading}");
    Some(reading.file)
}

/// Three numbers at all depths: the lowest, the highest and one between.
#[test]
fn every_plane() {
    each_round("every_plane", 1, |random, origin| {
        for of in all_depths().flat_map(|depths| [0, 1, 2, 3].map(|transform| planes(depths, transform))).flatten() {
            let range = of.range().unwrap();
            let between = random.between(range.low, range.high);
            let samples = [range.low, between, range.high].map(|number| number as i32);
            there_and_back((3, 1), of, &samples, 4, origin);
        }
    });
}

#[test]
fn many_sizes() {
    each_round("many_sizes", 2000, |random, origin| {
        let Settings { width, height, depths, transform } = random::settings(random);
        for of in planes(depths, transform) {
            let samples = samples(random, of, width as usize * height as usize);
            there_and_back((width, height), of, &samples, random.below(40), origin);
        }
    });
}

/// Every number of digits that width and height can have, and many samples.
#[test]
fn larger_planes() {
    each_round("larger_planes", 1, |random, origin| {
        for (width, height) in [(8192, 1), (1, 8192), (9, 10), (99, 100), (999, 1), (1, 1000), (300, 200), (8192, 3)] {
            for _ in 0..3 {
                let of = narrow(random);
                let samples = samples(random, of, width as usize * height as usize);
                there_and_back((width, height), of, &samples, 1, origin);
            }
        }
    });
}

/// What a picture goes to, through files and back to the picture.
#[test]
fn pictures() {
    each_round("graymaps::pictures", 1000, |random, origin| {
        let settings = random::settings(random);
        let case = random::case_without_scratch(random, settings, origin);
        let (_, finished) = case.forward();
        through_files(&case, &finished);
    });
}

/// The finished planes of the case through files, and its picture back from them.
pub fn through_files(case: &Case, finished: &[Vec<i32>; 3]) {
    let Settings { width, height, depths, transform } = case.settings;
    for (of, plane) in planes(depths, transform).into_iter().zip(finished) {
        there_and_back((width, height), of, plane, 1, &case.origin);
    }
    case.with(finished.clone()).inverse_as(Ok(case.planes.clone()));
}
