//! The text of the report program.

use super::{pixmap_header, pixmap_planes, places, search};
use super::{Estimated, Found, RefusalNumber, Scratch, Settings, TRANSFORMS};

/// The names of the transforms by number.
pub const NAMES: [&str; TRANSFORMS as usize] = ["RCT", "YCoCg-R", "RDgDb", "LDgEb"];

/// The first line.
pub const REPORT_HEAD: &str = "transform filters estimate samples each rest\n";

const INPUT: usize = 8192;
const PIXELS: usize = 2048;
const COUNTERS: usize = 1785;

/// The line of a transform, by what the search finds.
pub fn report_line(name: &str, found: &Found) -> String {
    let filters: Vec<String> = found.filters.iter().map(u8::to_string).collect();
    let Estimated { estimate, samples } = found.estimated;
    format!("{name} {} {estimate} {samples} {} {}\n", filters.join(","), found.estimated.each(), found.estimated.rest())
}

fn lines(input: &[u8]) -> Result<String, RefusalNumber> {
    if input.len() > INPUT {
        return Err(9);
    }
    let header = pixmap_header(input)?;
    let (width, height, depth) = (header.width, header.height, header.depth);
    let planes = pixmap_planes(input, [width as usize * height as usize; 3])?;
    let planes = planes.each_ref().map(Vec::as_slice);
    let scratch = Scratch { trial: [PIXELS; 3], counters: COUNTERS };
    let mut text = String::from(REPORT_HEAD);
    for (transform, name) in (0..TRANSFORMS).zip(NAMES) {
        let settings = Settings { width, height, depths: [depth; 3], transform };
        text += &report_line(name, &search(settings, 2, places(transform), planes, scratch)?);
    }
    Ok(text)
}

/// What the report program prints for its input.
pub fn report(input: &[u8]) -> String {
    lines(input).unwrap_or_else(|number| format!("refused {number}\n"))
}
