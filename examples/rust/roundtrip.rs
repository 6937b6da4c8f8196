//! Reads a P6 file, finds the best transform and filters, transforms the picture and brings it back; then once more in the
//! wrapped form, whose planes fit the file's bytes, and once in bands of rows, every second of which is left as it is.

#[path = "../../compare/src/library.rs"]
mod library;

use library::{counters, forward, forward_banded, forward_wrapped, inverse, inverse_banded, inverse_wrapped};
use library::{pixmap, pixmap_planes, places, search, Refusal, Scratch, Settings};
use std::process::exit;

const NAMES: [&str; 4] = ["RCT", "YCoCg-R", "RDgDb", "LDgEb"];

const BAND_HEIGHT: u32 = 16;
const NULL_FILTER: u8 = 12;

fn stop(what: &str, why: &str) -> ! {
    eprintln!("{what}: {why}");
    exit(1)
}

fn stop_refused(what: &str, refusal: Refusal) -> ! {
    stop(what, &format!("refused {}, {refusal}", refusal.number()))
}

/// The lowest and the highest number of each plane.
fn print_ranges(planes: &[Vec<i32>; 3]) {
    for (plane, number) in planes.iter().zip(1..) {
        let (low, high) = (plane.iter().min().unwrap(), plane.iter().max().unwrap());
        println!("plane {number} holds {low} to {high}");
    }
}

/// Stops unless the planes hold the picture.
fn compare(name: &str, picture: &[Vec<i32>; 3], planes: &[Vec<i32>; 3]) {
    if planes != picture {
        stop(name, "the picture did not come back");
    }
    println!("all {} samples came back", 3 * planes[0].len());
}

/// Transforms the picture in the wrapped form and brings it back from bytes: every number needs only the bits of a sample,
/// so one byte up to depth 8, else two.
fn through_bytes(settings: Settings, choices: &[u8], planes: &mut [Vec<i32>; 3]) {
    forward_wrapped(settings, choices, planes.each_mut().map(Vec::as_mut_slice))
        .unwrap_or_else(|refusal| stop_refused("forward, wrapped", refusal));
    let size = if settings.depths[0] <= 8 { 1 } else { 2 };
    let bytes: Vec<u8> = planes.iter().flatten().flat_map(|number| number.to_le_bytes().into_iter().take(size)).collect();
    println!("wrapped, in {} bytes", bytes.len());
    print_ranges(planes);

    for (number, bytes) in planes.iter_mut().flatten().zip(bytes.chunks_exact(size)) {
        *number = bytes.iter().rev().fold(0, |sum, &byte| 256 * sum + i32::from(byte));
    }
    inverse_wrapped(settings, choices, planes.each_mut().map(Vec::as_mut_slice))
        .unwrap_or_else(|refusal| stop_refused("inverse, wrapped", refusal));
}

/// Transforms the picture in bands and brings it back. The first band has the choices, the second null at every place, and
/// so on in turns.
fn in_bands(settings: Settings, choices: &[u8], planes: &mut [Vec<i32>; 3]) {
    let rows = settings.height.min(BAND_HEIGHT);
    let nulls = vec![NULL_FILTER; choices.len()];
    let bands = settings.height.div_ceil(rows) as usize;
    let sets: Vec<u8> = [choices, &nulls].into_iter().cycle().take(bands).flatten().copied().collect();
    forward_banded(settings, rows, &sets, planes.each_mut().map(Vec::as_mut_slice))
        .unwrap_or_else(|refusal| stop_refused("forward, in bands", refusal));
    println!("in bands of {rows} rows, every second one left as it is");
    print_ranges(planes);
    inverse_banded(settings, rows, &sets, planes.each_mut().map(Vec::as_mut_slice))
        .unwrap_or_else(|refusal| stop_refused("inverse, in bands", refusal));
}

fn main() {
    let words: Vec<String> = std::env::args().collect();
    let [_, name] = &words[..] else { stop("usage", "roundtrip FILE.ppm") };
    let file = std::fs::read(name).unwrap_or_else(|error| stop(name, &error.to_string()));
    let picture = pixmap(&file).unwrap_or_else(|refusal| stop_refused(name, refusal));
    let (width, height, depth) = (picture.width, picture.height, picture.depth);
    println!("width {width} height {height} depth {depth}");
    let depths = [depth; 3]; // a P6 file has one for all three planes

    let samples = width as usize * height as usize;
    let mut planes = [(); 3].map(|()| vec![0i32; samples]);
    pixmap_planes(&file, planes.each_mut().map(Vec::as_mut_slice))
        .unwrap_or_else(|refusal| stop_refused(name, refusal));

    let as_read = planes.clone();

    // Scratch: three trial planes, and counters that are enough for every transform.
    let mut trial = [(); 3].map(|()| vec![0i32; samples]);
    let most = (0..4).filter_map(|transform| counters(depths, transform)).max();
    let mut counters = vec![0u32; most.expect("a P6 file's depth is not refused")];

    println!("transform filters estimate samples each rest");
    let mut best: Option<(u32, Settings, Vec<u8>)> = None;
    for transform in 0..4 {
        let settings = Settings { width, height, depths, transform };
        let mut choices = vec![0u8; places(transform)];
        let scratch = Scratch { trial: trial.each_mut().map(Vec::as_mut_slice), counters: &mut counters };
        let answer = search(settings, 2, &mut choices, planes.each_ref().map(Vec::as_slice), scratch)
            .unwrap_or_else(|refusal| stop_refused(name, refusal));
        let filters: Vec<String> = choices.iter().map(u8::to_string).collect();
        // A call that is not refused counts at least one sample.
        let (each, rest) = (answer.estimate / answer.samples, answer.estimate % answer.samples);
        print!("{} {} ", NAMES[transform as usize], filters.join(","));
        println!("{} {} {each} {rest}", answer.estimate, answer.samples);
        if best.as_ref().is_none_or(|(lowest, _, _)| answer.estimate < *lowest) {
            best = Some((answer.estimate, settings, choices));
        }
    }
    let (_, settings, choices) = best.expect("four transforms were searched");
    println!("best {}", NAMES[settings.transform as usize]);

    forward(settings, &choices, planes.each_mut().map(Vec::as_mut_slice))
        .unwrap_or_else(|refusal| stop_refused("forward", refusal));
    print_ranges(&planes);

    inverse(settings, &choices, planes.each_mut().map(Vec::as_mut_slice))
        .unwrap_or_else(|refusal| stop_refused("inverse", refusal));
    compare(name, &as_read, &planes);

    through_bytes(settings, &choices, &mut planes);
    compare(name, &as_read, &planes);

    in_bands(settings, &choices, &mut planes);
    compare(name, &as_read, &planes);
}
