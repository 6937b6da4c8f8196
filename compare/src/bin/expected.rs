//! Prints what the reference gives, to make the stored outputs of other programs.

use compare::generator;
use compare::reference::{self, Estimated, Scratch, Settings};
use std::io::{Read, Write};
use std::process::exit;

const USAGE: &str = "\
expected report FILE                  what the report program prints
expected header FILE                  width, height and depth, or the refusal
expected picture W H B SEED           the generated picture
expected pixmap W H B SEED            the generated picture as a P6 file
expected forward W H B T FILTERS SEED the generated picture's finished planes
expected digest W H B T FILTERS SEED  of each finished plane one number
expected estimate W H B T FILTERS SEED    estimate and N
expected search W H B T ROUNDS SEED   filters, estimate and N
expected inverse W H B T FILTERS P1 P2 P3 the picture that goes to the planes
expected logarithms FIRST LAST        L(n), a line each

FILE '-' is standard input. FILTERS and planes are numbers with commas between, as 0,12,3.
B is the depth of all three planes.
Planes are printed a row to a line, blanks between, one plane after the other.
A refusal is printed as 'refused' and its number.

The generated picture: x starts at SEED; for each sample, plane 1 row by row, then plane 2, then
plane 3, x = (x * 1664525 + 1013904223) mod 2^32, and the sample is (x / 65536) mod 2^B.
The digest of a plane: d starts at 0; for each sample s in order, d = (d * 31 + s) mod 2^32.
";

fn usage() -> ! {
    eprint!("{USAGE}");
    exit(2)
}

fn number<T: std::str::FromStr>(word: &str) -> T {
    word.parse().unwrap_or_else(|_| {
        eprintln!("not a number of its kind: {word}");
        exit(2)
    })
}

fn numbers<T: std::str::FromStr>(word: &str) -> Vec<T> {
    if word.is_empty() {
        Vec::new()
    } else {
        word.split(',').map(number).collect()
    }
}

fn file(name: &str) -> Vec<u8> {
    let mut bytes = Vec::new();
    let read = match name {
        "-" => std::io::stdin().read_to_end(&mut bytes).map(|_| ()),
        _ => std::fs::read(name).map(|whole| bytes = whole),
    };
    if let Err(error) = read {
        eprintln!("{name}: {error}");
        exit(2)
    }
    bytes
}

fn settings(words: &[&str]) -> Settings {
    let [width, height, depth, transform] = [0, 1, 2, 3].map(|at| number(words[at]));
    Settings { width, height, depths: [depth; 3], transform }
}

fn rows(width: u32, planes: &[Vec<i32>; 3]) -> String {
    let mut text = String::new();
    for row in planes.iter().flat_map(|plane| plane.chunks(width as usize)) {
        let row: Vec<String> = row.iter().map(i32::to_string).collect();
        text += &row.join(" ");
        text += "\n";
    }
    text
}

fn digest(plane: &[i32]) -> u32 {
    plane.iter().fold(0, |sum: u32, &sample| sum.wrapping_mul(31).wrapping_add(sample as u32))
}

fn answer(words: &[&str]) -> Result<Vec<u8>, u32> {
    let generated = |settings: Settings, seed: &str| {
        if settings.width > 8192 || settings.height > 8192 || settings.depths[0] > 16 {
            eprintln!("no such picture");
            exit(2)
        }
        generator::picture(settings.width, settings.height, settings.depths, number(seed))
    };
    let text = match words {
        ["report", name] => reference::report(&file(name)),
        ["header", name] => {
            let bytes = file(name);
            let header = reference::pixmap_header(&bytes)?;
            format!("{} {} {}\n", header.width, header.height, header.depth)
        }
        ["picture" | "pixmap", w, h, b, seed] => {
            let told = settings(&[w, h, b, "0"]);
            let planes = generated(told, seed);
            if words[0] == "pixmap" {
                let [depth, ..] = told.depths;
                if depth < 2 {
                    usage()
                }
                return Ok(generator::pixmap(told.width, told.height, depth, &planes));
            }
            rows(told.width, &planes)
        }
        ["forward" | "digest" | "estimate", w, h, b, t, filters, seed] => {
            let told = settings(&[w, h, b, t]);
            let filters = numbers(filters);
            let planes = generated(told, seed);
            let lent = planes.each_ref().map(Vec::as_slice);
            if words[0] == "estimate" {
                let Estimated { estimate, samples } = reference::estimate(told, &filters, lent, AMPLE)?;
                format!("{estimate} {samples}\n")
            } else {
                let finished = reference::forward(told, None, &filters, lent)?;
                if words[0] == "forward" {
                    rows(told.width, &finished)
                } else {
                    finished.iter().map(|plane| format!("{}\n", digest(plane))).collect()
                }
            }
        }
        ["search", w, h, b, t, rounds, seed] => {
            let told = settings(&[w, h, b, t]);
            let planes = generated(told, seed);
            let places = if told.transform < reference::TRANSFORMS { reference::places(told.transform) } else { 0 };
            let found = reference::search(told, number(rounds), places, planes.each_ref().map(Vec::as_slice), AMPLE)?;
            let filters: Vec<String> = found.filters.iter().map(u8::to_string).collect();
            format!("{} {} {}\n", filters.join(","), found.estimated.estimate, found.estimated.samples)
        }
        ["inverse", w, h, b, t, filters, p1, p2, p3] => {
            let told = settings(&[w, h, b, t]);
            let planes: [Vec<i32>; 3] = [p1, p2, p3].map(|plane| numbers(plane));
            rows(told.width, &reference::inverse(told, None, &numbers(filters), planes.each_ref().map(Vec::as_slice))?)
        }
        ["logarithms", first, last] => {
            let (first, last): (usize, usize) = (number(first), number(last));
            if first < 1 || last > 4096 {
                usage()
            }
            (first..=last).map(|n| format!("{}\n", reference::logarithm(n))).collect()
        }
        _ => usage(),
    };
    Ok(text.into_bytes())
}

/// Scratch that is never short.
const AMPLE: Scratch = Scratch { trial: [usize::MAX; 3], counters: usize::MAX };

fn main() {
    let words: Vec<String> = std::env::args().skip(1).collect();
    let words: Vec<&str> = words.iter().map(String::as_str).collect();
    let output = answer(&words).unwrap_or_else(|refusal| format!("refused {refusal}\n").into_bytes());
    std::io::stdout().write_all(&output).expect("standard output");
}
