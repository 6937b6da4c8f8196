//! The reader of graymaps on files of every kind.

use crate::files::Reading;
use crate::graymaps::{maxval, narrow, planes, raw, there_and_back};
use crate::headers::{any_header, each_damage, edited, header, SIDES};
use crate::random::{each_round, Random};
use compare::reference::{sample_bytes, FinishedPlane, TRANSFORMS};

/// A file of the plane with a header of any layout, and its raster.
fn any_layout(random: &mut Random, of: FinishedPlane, width: u32, height: u32) -> (Vec<u8>, Vec<u8>) {
    let (maxval, bytes) = (maxval(of), sample_bytes(maxval(of)));
    let mut sample = || raw(random.between(0, maxval.into()) as u32, bytes);
    let raster = (0..width * height).flat_map(|_| sample()).collect();
    (header(random, "P5", [&width, &height, &maxval]), raster)
}

fn reading(of: FinishedPlane, file: &[u8], beyond: &[u8], length: usize, origin: &str) -> Reading {
    Reading { of, file: file.to_vec(), beyond: beyond.to_vec(), length, origin: origin.to_string() }
}

/// Any file that is accepted, written again, has its raster again.
#[test]
fn rewritten_files() {
    each_round("rewritten_files", 4000, |random, origin| {
        let of = narrow(random);
        let (width, height) = (1 + random.below(9) as u32, 1 + random.below(9) as u32);
        let (header, raster) = any_layout(random, of, width, height);
        let case = reading(of, &[&header[..], &raster].concat(), b"", (width * height) as usize, origin);
        let (read, plane) = case.call();
        assert_eq!((read.refusal, read.width, read.height), (0, width, height), "{case}");
        let file = there_and_back((width, height), of, &plane, 3, origin).unwrap();
        assert_eq!(file[file.len() - raster.len()..], raster, "{case}");
    });
}

/// Every prefix of a file, with the rest of it right behind in memory; and a byte more.
#[test]
fn truncated_files() {
    each_round("graymap_files::truncated_files", 150, |random, origin| {
        let of = narrow(random);
        let (header, raster) = any_layout(random, of, 2, 1);
        let file = [header, raster].concat();
        for length in 0..file.len() {
            let case = reading(of, &file[..length], &file[length..], 2, origin);
            assert_ne!(case.call().0.refusal, 0, "{case}");
        }
        let case = reading(of, &[&file[..], b"\0"].concat(), b"", 2, origin);
        assert_eq!(case.call().0.refusal, 4, "{case}");
    });
}

#[test]
fn damaged_files() {
    each_round("graymap_files::damaged_files", 12, |random, origin| {
        let of = narrow(random);
        let (header, raster) = any_layout(random, of, 2, 1);
        each_damage(&[header, raster].concat(), |damaged| {
            reading(of, damaged, b"", 2, origin).call();
        });
    });
}

#[test]
fn edited_files() {
    each_round("graymap_files::edited_files", 8000, |random, origin| {
        let of = narrow(random);
        let (width, height) = (1 + random.below(3) as u32, 1 + random.below(3) as u32);
        let (header, raster) = any_layout(random, of, width, height);
        let file = edited(random, &[header, raster].concat());
        reading(of, &file, b"", (width * height) as usize, origin).call();
    });
}

/// Bytes from the header's alphabet in any order, after a beginning that is right; and any bytes.
#[test]
fn random_headers() {
    each_round("graymap_files::random_headers", 30_000, |random, origin| {
        let transform = random.below(TRANSFORMS as usize) as u32;
        let of = random.one_of(&planes([8; 3], transform));
        let beginnings = ["P5", "P5 ", "P5\n1 1", "P5 2 1 510", "P5 #", "P5 1 1 ", "P5 1 2 255 ", "P5 2 1 765\n", ""];
        let beginning = random.one_of(&beginnings);
        let file = any_header(random, beginning);
        reading(of, &file, b" 2 1 510 abcd", random.below(4), origin).call();
        let file: Vec<u8> = (0..random.below(60)).map(|_| random.number() as u8).collect();
        reading(of, &file, b"", 1, origin).call();
    });
}

/// Numbers at the limits, beside the plane's maxval, and those that would be right if they wrapped.
#[test]
fn numbers() {
    each_round("graymap_files::numbers", 3, |random, origin| {
        let of = narrow(random);
        let own = u128::from(maxval(of));
        let wrapped = [8, 16, 32, 64].map(|bits| own + (1u128 << bits));
        let maxvals = [&[own, own - 1, own + 1, 0, 1, 255, 256, 65_535, 65_536, 10 * own][..], &wrapped].concat();
        for width in SIDES {
            for height in SIDES {
                for maxval in &maxvals {
                    let mut file = header(random, "P5", [&width, &height, maxval]);
                    file.resize(file.len() + random.one_of(&[0, 1, 2, 2, 4, 4, 8]), 0);
                    reading(of, &file, b"", random.one_of(&[1, 2, 4]), origin).call();
                }
            }
        }
    });
}

/// Every value that a raster can give a sample, of planes with one byte a sample and with two.
#[test]
fn every_value() {
    for (depths, transform, plane) in [
        ([5, 6, 5], 0, 1),
        ([2, 7, 8], 0, 2),
        ([8; 3], 2, 1),
        ([7; 3], 2, 2),
        ([8, 7, 3], 0, 2),
        ([8; 3], 1, 3),
        ([15; 3], 0, 2),
        ([16; 3], 2, 1),
    ] {
        let of = FinishedPlane { depths, transform, plane };
        let bytes = sample_bytes(maxval(of));
        for value in 0..1u32 << (8 * bytes) {
            let mut file = format!("P5 1 1 {} ", maxval(of)).into_bytes();
            file.extend(raw(value, bytes));
            let case = reading(of, &file, b"", 1, "");
            let number = if value <= maxval(of) { 0 } else { 12 };
            assert_eq!(case.call().0.refusal, number, "{case}");
        }
    }
}
