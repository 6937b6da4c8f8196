//! The headers of Netpbm's raw files, and the samples behind them.

use super::{is_side, RefusalNumber};

/// What a header says: its letters aside, the same in P5 and P6.
#[derive(Clone, Copy, Debug)]
pub struct Said<'a> {
    pub width: u32,
    pub height: u32,
    /// None where it is 100,000 or more.
    pub maxval: Option<u32>,
    /// What follows the header.
    pub raster: &'a [u8],
}

fn is_white_space(byte: u8) -> bool {
    matches!(byte, b' ' | b'\t' | b'\n' | 0x0b | 0x0c | b'\r')
}

/// The bytes behind one white space byte.
fn after_white_space(file: &[u8]) -> Option<&[u8]> {
    let (&first, rest) = file.split_first()?;
    is_white_space(first).then_some(rest)
}

/// The bytes behind a stretch of white space and comments that begins with a white space byte.
fn after_stretch(file: &[u8]) -> Option<&[u8]> {
    let mut rest = after_white_space(file)?;
    loop {
        if let Some(next) = after_white_space(rest) {
            rest = next;
        } else if rest.first() == Some(&b'#') {
            let end = rest.iter().position(|&byte| byte == b'\n' || byte == b'\r')?;
            rest = &rest[end + 1..];
        } else {
            return Some(rest);
        }
    }
}

/// The digits of a number without its leading zeros, and the bytes behind it.
fn number(file: &[u8]) -> Option<(&[u8], &[u8])> {
    let end = file.iter().position(|byte| !byte.is_ascii_digit()).unwrap_or(file.len());
    if end == 0 {
        return None;
    }
    let zeros = file[..end].iter().take_while(|&&byte| byte == b'0').count();
    Some((&file[zeros..end], &file[end..]))
}

/// The number that the digits write, where it is below 100,000.
fn small(digits: &[u8]) -> Option<u32> {
    if digits.len() > 5 {
        return None;
    }
    Some(digits.iter().fold(0, |sum, digit| sum * 10 + u32::from(digit - b'0')))
}

/// Digits of width, height and maxval, and the raster.
fn form<'a>(letters: &str, file: &'a [u8]) -> Option<([&'a [u8]; 3], &'a [u8])> {
    let rest = file.strip_prefix(letters.as_bytes())?;
    let (width, rest) = number(after_stretch(rest)?)?;
    let (height, rest) = number(after_stretch(rest)?)?;
    let (maxval, rest) = number(after_stretch(rest)?)?;
    Some(([width, height, maxval], after_white_space(rest)?))
}

/// The header that begins with these letters. Refusals 1, 2.
pub fn header<'a>(letters: &str, file: &'a [u8]) -> Result<Said<'a>, RefusalNumber> {
    let ([width, height, maxval], raster) = form(letters, file).ok_or(1u32)?;
    let side = |digits| small(digits).filter(|&side| is_side(side)).ok_or(2u32);
    Ok(Said { width: side(width)?, height: side(height)?, maxval: small(maxval), raster })
}

impl<'a> Said<'a> {
    pub fn samples(&self) -> usize {
        self.width as usize * self.height as usize
    }
}

/// How many bytes a sample has: "one byte a sample when maxval is below 256, else two".
pub fn sample_bytes(maxval: u32) -> usize {
    if maxval < 256 {
        1
    } else {
        2
    }
}

/// The numbers of a raster with so many bytes a sample, "most significant first".
pub fn numbers(raster: &[u8], bytes: usize) -> impl Iterator<Item = i64> + '_ {
    raster.chunks(bytes).map(|sample| sample.iter().fold(0, |sum, &byte| 256 * sum + i64::from(byte)))
}
