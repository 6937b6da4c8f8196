//! Headers of Netpbm's raw files, of every allowed layout, and files with damage.

use crate::random::Random;
use std::fmt::Display;

const WHITE_SPACE: &[u8] = b" \t\n\x0b\x0c\r";

/// Widths and heights at the limits, and those that would be right if they wrapped.
pub const SIDES: [&str; 16] = [
    "0",
    "1",
    "2",
    "8191",
    "8192",
    "8193",
    "10000",
    "65537",
    "65538",
    "4294967297",
    "4294967298",
    "18446744073709551617",
    "18446744073709551618",
    "340282366920938463463374607431768211457",
    "999999999999999999999999999999",
    "100000000000000000000000000001",
];

/// White space and comments as the header allows them before a number.
fn stretch(random: &mut Random, out: &mut Vec<u8>) {
    out.push(random.one_of(WHITE_SPACE));
    for _ in 0..random.one_of(&[0, 0, 0, 1, 2, 4]) {
        if random.one_in(2) {
            out.push(random.one_of(WHITE_SPACE));
        } else {
            out.push(b'#');
            for _ in 0..random.below(6) {
                out.push(random.one_of(b"# 1\t6P\x00\xffa"));
            }
            out.push(random.one_of(b"\n\r"));
        }
    }
}

/// A header with these numbers, in any layout.
pub fn header(random: &mut Random, letters: &str, numbers: [&dyn Display; 3]) -> Vec<u8> {
    let mut file = letters.as_bytes().to_vec();
    for number in numbers {
        stretch(random, &mut file);
        for _ in 0..random.one_of(&[0, 0, 0, 1, 3, 30]) {
            file.push(b'0');
        }
        file.extend(number.to_string().bytes());
    }
    file.push(random.one_of(WHITE_SPACE));
    file
}

/// The beginning, and behind it bytes from the header's alphabet in any order.
pub fn any_header(random: &mut Random, beginning: &str) -> Vec<u8> {
    let mut file = beginning.as_bytes().to_vec();
    for _ in 0..random.below(24) {
        file.push(random.one_of(b"P561123570#  \n\r\t\x0b\x0c\x00\x08\x0e\x85\xa0-+."));
    }
    file
}

/// The file with each of its bytes replaced by every other, removed and doubled.
pub fn each_damage(file: &[u8], mut with: impl FnMut(&[u8])) {
    for at in 0..file.len() {
        for byte in 0..=255 {
            let mut damaged = file.to_vec();
            damaged[at] = byte;
            with(&damaged);
        }
        with(&[&file[..at], &file[at + 1..]].concat());
        with(&[&file[..=at], &file[at..]].concat());
    }
}

/// The file with one to four edits: a byte replaced, removed or put in, or its end cut off.
pub fn edited(random: &mut Random, file: &[u8]) -> Vec<u8> {
    let mut file = file.to_vec();
    for _ in 0..1 + random.below(4) {
        let at = random.below(file.len() + 1);
        let byte = random.one_of(b"P569012 \t\n#\x00\xff");
        match random.below(6) {
            0 | 1 => file.insert(at, byte),
            2 if at < file.len() => drop(file.remove(at)),
            3 => file.truncate(at),
            _ if at < file.len() => file[at] = byte,
            _ => (),
        }
    }
    file
}
