//! The pixmap reader on files of every kind.

use crate::files::pixmap;
use crate::headers::{any_header, each_damage, edited, header, SIDES};
use crate::random::{each_round, Random};

/// Maxvals of every kind, also those that would be right if they wrapped.
const MAXVALS: [&str; 31] = [
    "0",
    "1",
    "2",
    "3",
    "4",
    "7",
    "8",
    "15",
    "31",
    "63",
    "64",
    "127",
    "254",
    "255",
    "256",
    "510",
    "511",
    "512",
    "1023",
    "4095",
    "32767",
    "65534",
    "65535",
    "65536",
    "65791",
    "131071",
    "4294967299",
    "4294967551",
    "18446744073709551619",
    "18446744073709551871",
    "999999999999999999999999999999",
];

/// A valid file of this depth.
fn valid_at(random: &mut Random, depth: u32, width: usize, height: usize) -> Vec<u8> {
    let mut file = header(random, "P6", [&width, &height, &((1 << depth) - 1)]);
    let bytes = if depth <= 8 { 3 } else { 6 };
    file.extend((0..bytes * width * height).map(|_| random.number() as u8));
    file
}

/// A valid file of any depth.
fn valid(random: &mut Random, width: usize, height: usize) -> Vec<u8> {
    let depth = random.between(2, 16) as u32;
    valid_at(random, depth, width, height)
}

#[test]
fn valid_files() {
    each_round("valid_files", 4000, |random, origin| {
        let (width, height) = (1 + random.below(9), 1 + random.below(9));
        let file = valid(random, width, height);
        assert_eq!(pixmap(&file, b"", [0; 3], origin).refusal, 0);
        let mut longer = [0; 3];
        longer[random.below(3)] = random.one_of(&[-1, 1, 5]);
        pixmap(&file, b"", longer, origin);
    });
}

#[test]
fn larger_files() {
    each_round("larger_files", 1, |random, origin| {
        for (width, height) in [(8192, 1), (1, 8192), (8192, 2), (300, 200), (1, 1)] {
            let file = valid(random, width, height);
            assert_eq!(pixmap(&file, b"", [0; 3], origin).refusal, 0);
        }
    });
}

/// At every depth the raster with its own length and with others, and maxvals beside the depth's.
#[test]
fn every_depth() {
    each_round("every_depth", 20, |random, origin| {
        for depth in 2..=16 {
            let (width, height) = (1 + random.below(4), 1 + random.below(4));
            let file = valid_at(random, depth, width, height);
            let answer = pixmap(&file, b"", [0; 3], origin);
            assert_eq!((answer.refusal, answer.depth), (0, depth));
            let raster = if depth <= 8 { 3 } else { 6 } * width * height;
            for length in [0, raster / 2, raster - 1, raster + 1, 2 * raster] {
                let mut other = file[..file.len() - raster].to_vec();
                other.resize(other.len() + length, 9);
                assert_eq!(pixmap(&other, b"", [0; 3], origin).refusal, 4);
            }
            for maxval in [(1 << depth) - 2, 1 << depth] {
                let mut other = header(random, "P6", [&width, &height, &maxval]);
                other.resize(other.len() + raster, 9);
                assert_eq!(pixmap(&other, b"", [0; 3], origin).refusal, 3);
            }
        }
    });
}

/// Every prefix of a valid file, with the rest of the file right behind it in memory.
#[test]
fn truncated_files() {
    each_round("truncated_files", 150, |random, origin| {
        let (width, height) = (1 + random.below(3), 1 + random.below(3));
        let file = valid(random, width, height);
        for length in 0..file.len() {
            let answer = pixmap(&file[..length], &file[length..], [0; 3], origin);
            assert_ne!(answer.refusal, 0);
        }
        let longer = [file.as_slice(), &[0]].concat();
        assert_eq!(pixmap(&longer, b"", [0; 3], origin).refusal, 4);
    });
}

/// Every byte of a valid file replaced, removed and doubled.
#[test]
fn damaged_files() {
    each_round("damaged_files", 12, |random, origin| {
        let file = valid(random, 2, 1);
        each_damage(&file, |damaged| {
            pixmap(damaged, b"", [0; 3], origin);
        });
    });
}

#[test]
fn edited_files() {
    each_round("edited_files", 8000, |random, origin| {
        let (width, height) = (1 + random.below(3), 1 + random.below(3));
        let file = valid(random, width, height);
        pixmap(&edited(random, &file), b"", [0; 3], origin);
    });
}

/// Bytes from the header's alphabet in any order, after a beginning that is right.
#[test]
fn random_headers() {
    each_round("random_headers", 40_000, |random, origin| {
        let beginning = random.one_of(&["P6", "P6 ", "P6\n1 1", "P6 2 1 3", "P6 #", "P6 1 1 ", "P6 1 1 511", ""]);
        let file = any_header(random, beginning);
        pixmap(&file, b" 1 1 3 abc", [0; 3], origin);
    });
}

#[test]
fn random_bytes() {
    each_round("random_bytes", 5000, |random, origin| {
        let file: Vec<u8> = (0..random.below(60)).map(|_| random.number() as u8).collect();
        pixmap(&file, b"", [0; 3], origin);
    });
}

/// Numbers at the limits, and those that would be right if they wrapped.
#[test]
fn numbers() {
    each_round("numbers", 2, |random, origin| {
        for width in SIDES {
            for height in SIDES {
                for maxval in MAXVALS {
                    let mut file = header(random, "P6", [&width, &height, &maxval]);
                    file.extend(vec![7; 3 * random.one_of(&[0, 1, 1, 1, 2, 4])]);
                    pixmap(&file, b"", [0; 3], origin);
                }
            }
        }
    });
}

/// The header's refusals come in their order, and all before the planes' lengths.
#[test]
fn order_of_refusals() {
    each_round("order_of_refusals", 1, |_, origin| {
        let answer = |file: &str, longer| pixmap(file.as_bytes(), b"", longer, origin).refusal;
        for longer in [[0; 3], [1, 0, 0], [0, -1, 0], [0, 0, 1], [3, 3, 3]] {
            assert_eq!(answer("P6 0 1 9 ab#", longer), 2);
            assert_eq!(answer("P6 0 1 9", longer), 1);
            assert_eq!(answer("P6 1 8193 9 ab", longer), 2);
            assert_eq!(answer("P6 1 1 9 ab", longer), 3);
            assert_eq!(answer("P6 1 1 3 ab", longer), 4);
            assert_eq!(answer("P6 1 1 3 abcd", longer), 4);
            assert_eq!(answer("P6 1 1 3 abc", longer), 0);
            assert_eq!(answer("P6 1 1 511 abc", longer), 4);
            assert_eq!(answer("P6 1 1 511 abcdef", longer), 0);
            assert_eq!(answer("P6 1 1 65536 abcdef", longer), 3);
        }
    });
}
