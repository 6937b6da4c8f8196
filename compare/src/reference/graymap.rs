//! Finished planes as portable graymaps, Netpbm's P5.

use super::header::{header, numbers, sample_bytes};
use super::{are_depths, is_side, ranges, Interval, RefusalNumber, TRANSFORMS};

/// A finished plane, 1 to 3, of the transform at the depths.
#[derive(Clone, Copy, Debug, PartialEq, Eq)]
pub struct FinishedPlane {
    pub depths: [u32; 3],
    pub transform: u32,
    pub plane: u32,
}

/// What a file holds.
#[derive(Clone, Debug, PartialEq, Eq)]
pub struct Graymap {
    pub width: u32,
    pub height: u32,
    pub samples: Vec<i32>,
}

impl FinishedPlane {
    /// The plane's range. Refusals 5, 6.
    pub fn range(self) -> Result<Interval, RefusalNumber> {
        if !are_depths(self.depths) {
            return Err(5);
        }
        if self.transform >= TRANSFORMS || !(1..=3).contains(&self.plane) {
            return Err(6);
        }
        Ok(ranges(self.depths, self.transform)[self.plane as usize - 1])
    }
}

/// "Maxval the range's highest less its lowest". Refusal 13.
fn maxval(range: Interval) -> Result<u32, RefusalNumber> {
    match range.width() {
        width @ ..=65_535 => Ok(width as u32),
        _ => Err(13),
    }
}

/// The file that holds the plane. Refusals 2, 5, 6, 8, 13, then 14 by the length of the lent buffer, 12.
pub fn graymap_file(
    width: u32,
    height: u32,
    of: FinishedPlane,
    samples: &[i32],
    buffer: usize,
) -> Result<Vec<u8>, RefusalNumber> {
    if !is_side(width) || !is_side(height) {
        return Err(2);
    }
    let range = of.range()?;
    if samples.len() != width as usize * height as usize {
        return Err(8);
    }
    let maxval = maxval(range)?;
    let mut file = format!("P5\n{width} {height}\n{maxval}\n").into_bytes();
    let bytes = sample_bytes(maxval);
    if buffer < file.len() + bytes * samples.len() {
        return Err(14);
    }
    for number in samples.iter().map(|&sample| i64::from(sample)) {
        if !range.contains(number) {
            return Err(12);
        }
        let written = number - range.low;
        let both = [(written / 256) as u8, (written % 256) as u8];
        file.extend(&both[2 - bytes..]);
    }
    Ok(file)
}

/// The plane that the file holds. Refusals 5, 6, 13, 1, 2, 3, 4, then 8 by the length of the lent plane, 12.
pub fn graymap_plane(of: FinishedPlane, file: &[u8], length: usize) -> Result<Graymap, RefusalNumber> {
    let range = of.range()?;
    let maxval = maxval(range)?;
    let said = header("P5", file)?;
    if said.maxval != Some(maxval) {
        return Err(3);
    }
    let bytes = sample_bytes(maxval);
    if said.raster.len() != said.samples() * bytes {
        return Err(4);
    }
    if length != said.samples() {
        return Err(8);
    }
    let plane: Vec<i64> = numbers(said.raster, bytes).map(|number| number + range.low).collect();
    if plane.iter().any(|&number| !range.contains(number)) {
        return Err(12);
    }
    let samples = plane.into_iter().map(|number| number as i32).collect();
    Ok(Graymap { width: said.width, height: said.height, samples })
}
