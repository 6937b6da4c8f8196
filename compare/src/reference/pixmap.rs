//! Portable pixmaps, Netpbm's P6.

use super::header::{header, numbers, sample_bytes};
use super::{greatest, RefusalNumber};

/// What the file says of its picture, and its raster.
#[derive(Clone, Copy, Debug, PartialEq, Eq)]
pub struct Header<'a> {
    pub width: u32,
    pub height: u32,
    pub depth: u32,
    pub raster: &'a [u8],
}

/// Width, height, depth and raster of the file. Refusals 1, 2, 3, 4.
pub fn pixmap_header(file: &[u8]) -> Result<Header<'_>, RefusalNumber> {
    let said = header("P6", file)?;
    let maxval = said.maxval.ok_or(3u32)?;
    let depth = (2..=16).find(|&depth| greatest([depth; 3])[0] == maxval.into()).ok_or(3u32)?;
    if said.raster.len() != 3 * said.samples() * sample_bytes(maxval) {
        return Err(4);
    }
    Ok(Header { width: said.width, height: said.height, depth, raster: said.raster })
}

/// The planes of the file's picture. Refusals 1, 2, 3, 4, then 8 by the lengths of the lent planes.
/// A sample above maxval goes into its plane as it is: the calls on planes refuse it.
pub fn pixmap_planes(file: &[u8], lengths: [usize; 3]) -> Result<[Vec<i32>; 3], RefusalNumber> {
    let header = pixmap_header(file)?;
    let samples = header.width as usize * header.height as usize;
    if lengths != [samples; 3] {
        return Err(8);
    }
    let bytes = header.raster.len() / (3 * samples);
    let plane = |first| numbers(header.raster, bytes).skip(first).step_by(3).map(|sample| sample as i32).collect();
    Ok([0, 1, 2].map(plane))
}
