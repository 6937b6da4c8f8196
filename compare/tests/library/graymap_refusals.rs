//! Every refusal of the calls on graymaps, alone and with others: the first in the order of the tests wins.

use crate::faults::{Faults, SIDES};
use crate::files::{anything, Reading, Writing};
use crate::graymaps::{length, maxval, narrow_at, raw, samples};
use crate::random::{each_round, Random};
use compare::reference::{sample_bytes, FinishedPlane, TRANSFORMS};
use std::fmt;

/// 5 and 6.
fn add_plane<C: 'static>(faults: &mut Faults<C>, of: fn(&mut C) -> &mut FinishedPlane) {
    faults.add_depths(move |case| &mut of(case).depths);
    faults.add_transforms(move |case| &mut of(case).transform);
    for number in [0, 4, 5, 256 + 1, 65_536 + 2, 1 << 31, u32::MAX] {
        faults.add(6, move |case| of(case).plane = number);
    }
}

/// 13: no plane of YCoCg-R fits at 16 bits.
fn add_wide<C: 'static>(faults: &mut Faults<C>, of: fn(&mut C) -> &mut FinishedPlane) {
    faults.add(13, move |case| (of(case).depths, of(case).transform) = ([16; 3], 1));
}

/// All faults of writing: 2, 5, 6, 8, 13, 14, 12.
fn faults_of_writing(case: &Writing) -> Faults<Writing> {
    let mut faults = Faults(Vec::new());
    for side in SIDES {
        faults.add(2, move |case: &mut Writing| case.width = side);
        faults.add(2, move |case| case.height = side);
    }
    faults.add(2, |case| (case.width, case.height) = (65_536, 65_536));
    add_plane(&mut faults, |case| &mut case.of);
    faults.add(8, |case| case.samples.truncate(1));
    faults.add(8, |case| case.samples.push(0));
    faults.add(8, |case| case.samples.clear());
    add_wide(&mut faults, |case| &mut case.of);
    for room in [0, 1, 10, case.buffer.len() - 1] {
        faults.add(14, move |case| case.buffer.truncate(room));
    }
    let range = case.of.range().unwrap();
    for number in [range.low as i32 - 1, range.high as i32 + 1, i32::MIN, i32::MAX] {
        faults.add(12, move |case| case.samples.first_mut().into_iter().for_each(|first| *first = number));
        faults.add(12, move |case| case.samples.last_mut().into_iter().for_each(|last| *last = number));
    }
    faults
}

/// Reading a file by its parts, so that each can be at fault alone.
#[derive(Clone)]
struct Parts {
    of: FinishedPlane,
    letters: &'static str,
    width: &'static str,
    height: &'static str,
    maxval: String,
    /// Between maxval and the raster.
    end: &'static str,
    /// How many of the raster a sample has.
    bytes: usize,
    raster: Vec<u8>,
    length: usize,
    origin: String,
}

impl Parts {
    fn reading(&self) -> Reading {
        let Parts { of, letters, width, height, maxval, end, raster, length, origin, .. } = self.clone();
        let header = format!("{letters} {width} {height} {maxval}{end}");
        Reading { of, file: [header.as_bytes(), &raster].concat(), beyond: Vec::new(), length, origin }
    }

    /// Sets a sample of the raster, where it is there.
    fn set(&mut self, index: usize, value: u32) {
        if let Some(sample) = self.raster.chunks_exact_mut(self.bytes).nth(index) {
            sample.copy_from_slice(&raw(value, self.bytes));
        }
    }
}

impl fmt::Display for Parts {
    fn fmt(&self, f: &mut fmt::Formatter<'_>) -> fmt::Result {
        self.reading().fmt(f)
    }
}

/// The faults of a file: 1, 2, 3, 4.
fn add_file(faults: &mut Faults<Parts>, own: u32) {
    for letters in ["", "P", "P6", "P4", "p5", " P5", "P5#", "P5x"] {
        faults.add(1, move |case| case.letters = letters);
    }
    for number in ["-1", "+1", "2.", "x", "2#\n"] {
        faults.add(1, move |case| case.width = number);
        faults.add(1, move |case| case.maxval = number.to_string());
    }
    for end in ["#\n", "x", "\0", ".0 "] {
        faults.add(1, move |case| case.end = end);
    }
    for side in ["0", "000", "8193", "65538", "4294967298", "18446744073709551618"] {
        faults.add(2, move |case| case.width = side);
        faults.add(2, move |case| case.height = side);
    }
    let wrapped = [8, 16, 32, 64].map(|bits| u128::from(own) + (1 << bits));
    let beside = [own - 1, own + 1, 0, 10 * own].map(u128::from);
    for other in wrapped.into_iter().chain(beside) {
        faults.add(3, move |case| case.maxval = other.to_string());
    }
    faults.add(4, |case| case.raster.truncate(1));
    faults.add(4, |case| case.raster.push(0));
    faults.add(4, |case| case.raster.clear());
    faults.add(4, |case| case.raster.extend([0; 4]));
}

/// All faults of reading: 5, 6, 13, 1, 2, 3, 4, 8, 12.
fn faults_of_reading(case: &Parts) -> Faults<Parts> {
    let mut faults = Faults(Vec::new());
    add_plane(&mut faults, |case: &mut Parts| &mut case.of);
    add_wide(&mut faults, |case| &mut case.of);
    let own = maxval(case.of);
    add_file(&mut faults, own);
    for length in [0, 1, 3, 4, 100] {
        faults.add(8, move |case| case.length = length);
    }
    let highest = if own < 256 { 255 } else { 65_535 };
    for value in [own + 1, highest].into_iter().filter(|&value| value > own && value <= highest) {
        faults.add(12, move |case| case.set(0, value));
        faults.add(12, move |case| case.set(1, value));
    }
    faults
}

/// Two samples of the plane, to be written with a buffer just long enough.
fn writing(random: &mut Random, of: FinishedPlane, origin: &str) -> Writing {
    let (samples, buffer) = (samples(random, of, 2), anything(length(2, 1, of)));
    Writing { width: 2, height: 1, of, samples, buffer, origin: origin.to_string() }
}

/// A file of two samples, the lowest and the highest.
fn parts(of: FinishedPlane, origin: &str) -> Parts {
    let (maxval, bytes) = (maxval(of), sample_bytes(maxval(of)));
    let mut parts = Parts {
        of,
        letters: "P5",
        width: "2",
        height: "1",
        maxval: maxval.to_string(),
        end: "\n",
        bytes,
        raster: vec![0; 2 * bytes],
        length: 2,
        origin: origin.to_string(),
    };
    parts.set(1, maxval);
    parts
}

/// Each plane of each transform, some where every value of a sample is right: maxval 255 and 65,535.
fn each_plane(random: &mut Random) -> Vec<FinishedPlane> {
    let kinds = (0..TRANSFORMS).flat_map(|transform| [0, 1, 2].map(|plane| (transform, plane)));
    let any = kinds.map(|(transform, plane)| narrow_at(random, transform, plane));
    let full =
        [([2, 7, 8], 0), ([2, 15, 16], 0)].map(|(depths, transform)| FinishedPlane { depths, transform, plane: 2 });
    any.chain(full).collect()
}

#[test]
fn one_fault_and_two_in_writing() {
    each_round("one_fault_and_two_in_writing", 1, |random, origin| {
        for of in each_plane(random) {
            let case = writing(random, of, origin);
            assert_eq!(case.call().0.refusal, 0, "{case}");
            faults_of_writing(&case).one_and_two(&case, |case| case.call().0.refusal);
        }
    });
}

#[test]
fn one_fault_and_two_in_reading() {
    each_round("one_fault_and_two_in_reading", 1, |random, origin| {
        for of in each_plane(random) {
            let case = parts(of, origin);
            assert_eq!(case.reading().call().0.refusal, 0, "{case}");
            faults_of_reading(&case).one_and_two(&case, |case| case.reading().call().0.refusal);
        }
    });
}

/// Any number of faults at once; the reference says which comes first.
#[test]
fn several_faults() {
    each_round("graymap_refusals::several_faults", 200, |random, origin| {
        for of in each_plane(random) {
            let mut case = writing(random, of, origin);
            faults_of_writing(&case).make_some(random, &mut case);
            case.call();
            let mut case = parts(of, origin);
            faults_of_reading(&case).make_some(random, &mut case);
            case.reading().call();
        }
    });
}
