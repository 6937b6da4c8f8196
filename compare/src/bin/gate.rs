//! Prints the lines that the programs of the gate must write, from the reference alone, to make their
//! files `stdout` again:
//!
//!     cargo run --release --bin gate -- transform_cases >../crates/transform_cases/stdout
//!     cargo run --release --bin gate -- search_cases >../crates/search_cases/stdout

use compare::generator::{self, Congruential};
use compare::reference::{self, Answer, Call, Estimated, Scratch, Settings};
use std::process::exit;

const USAGE: &str = "\
gate transform_cases  what the program `transform_cases` writes
gate search_cases     what the program `search_cases` writes
";

type Planes = [Vec<i32>; 3];

fn lent(planes: &Planes) -> [&[i32]; 3] {
    planes.each_ref().map(Vec::as_slice)
}

fn list<T: ToString>(numbers: &[T], separator: &str) -> String {
    let words: Vec<String> = numbers.iter().map(T::to_string).collect();
    words.join(separator)
}

fn told(settings: Settings) -> String {
    let Settings { width, height, depths, transform } = settings;
    format!("transform {transform} width {width} height {height} depths {}", list(&depths, " "))
}

fn told_filters(settings: Settings, filters: &[u8]) -> String {
    format!("{} filters {}", told(settings), list(filters, ","))
}

/// The planes' numbers, with a blank before each.
fn numbers(planes: &Planes) -> String {
    let plane = |plane: &Vec<i32>| plane.iter().map(|n| format!(" {n}")).collect::<String>();
    planes.each_ref().map(plane).join(" /")
}

fn answered(answer: &Answer) -> String {
    match answer {
        Ok(_) => "done".to_string(),
        Err(refusal) => format!("refused {refusal}"),
    }
}

/// What the lent planes hold after the call.
fn left(planes: &Planes, answer: &Answer) -> Planes {
    answer.as_ref().unwrap_or(planes).clone()
}

/// A filter for each place of the transform, four past the last; n = 0 to 12 puts each filter at each place.
fn choices(transform: u32, n: u32) -> Vec<u8> {
    let places = if transform < reference::TRANSFORMS { reference::places(transform) } else { 4 };
    (0..places as u32).map(|place| ((n + 3 * place) % 13) as u8).collect()
}

/// A form's word, and its calls there and back.
const FORMS: [(&str, Call, Call); 2] = [
    ("", reference::forward, reference::inverse),
    (" wrapped", reference::forward_wrapped, reference::inverse_wrapped),
];

/// Forward and, on what that leaves, back, in both forms.
fn limit(settings: Settings, filters: &[u8], planes: Planes, short: bool) {
    for (form, there, back) in FORMS {
        let forward = there(settings, None, filters, lent(&planes));
        let finished = left(&planes, &forward);
        let inverse = back(settings, None, filters, lent(&finished));
        let again = left(&finished, &inverse);
        let told = told_filters(settings, filters);
        let (forward, inverse) = (answered(&forward), answered(&inverse));
        if short {
            println!("{told}{form} forward {forward} inverse {inverse}");
        } else {
            let [before, finished, again] = [&planes, &finished, &again].map(numbers);
            println!("{told} planes{before}{form} forward {forward}{finished} inverse {inverse}{again}");
        }
    }
}

fn limits() {
    for length in [8192, 8193] {
        let planes = [1, 2, 3].map(|sample| vec![sample; length as usize]);
        for (width, height) in [(length, 1), (1, length)] {
            limit(Settings { width, height, depths: [8; 3], transform: 0 }, &[1; 4], planes.clone(), true);
        }
    }
    let pixel = |width, height, depths, transform, filters: &[u8], samples: [i32; 3]| {
        limit(Settings { width, height, depths, transform }, filters, samples.map(|sample| vec![sample]), false);
    };
    for depths in [[1; 3], [2; 3], [16; 3], [17; 3], [1, 8, 8], [8, 17, 8], [8, 8, 1]] {
        pixel(1, 1, depths, 0, &[0; 4], [3, 1, 2]);
    }
    for samples in [[255, 0, 255], [256, 0, 255], [0, 256, 0], [0, 0, -1]] {
        pixel(1, 1, [8; 3], 0, &[0; 4], samples);
    }
    for samples in [[31, 63, 31], [32, 63, 31], [31, 64, 31], [31, 32, 32]] {
        pixel(1, 1, [5, 6, 5], 0, &[0; 4], samples);
    }
    for (width, height, transform, filters) in [
        (0, 1, 0, &[0; 4][..]),
        (1, 0, 0, &[0; 4]),
        (2, 1, 0, &[0; 4]),
        (1, 1, 4, &[0; 4]),
        (1, 1, 2, &[0; 3]),
        (1, 1, 3, &[0; 2]),
        (1, 1, 2, &[12, 12]),
        (1, 1, 2, &[12, 13]),
        (1, 1, 3, &[12, 12, 12]),
        (1, 1, 3, &[12, 0, 0]),
        (1, 1, 2, &[12, 0]),
        (1, 1, 2, &[0, 12]),
        (1, 1, 0, &[0, 0, 12, 12]),
        (1, 1, 0, &[0, 0, 12, 0]),
        (1, 1, 0, &[0, 0, 0, 12]),
    ] {
        pixel(width, height, [8; 3], transform, filters, [10, 200, 60]);
    }
}

/// Whether the planes that a call leaves are the picture.
fn compared(planes: &Planes, picture: &Planes) -> &'static str {
    if planes == picture {
        "the picture"
    } else {
        "another picture"
    }
}

/// The picture in the wrapped form, with its deepest depth for all planes: there and back, then back and there.
fn wrapped(settings: Settings, band_height: Option<u32>, filters: &[u8], picture: &Planes) {
    let [_, (_, there, back)] = FORMS;
    let deepest = settings.depths.into_iter().max().unwrap();
    let settings = Settings { depths: [deepest; 3], ..settings };
    println!("wrapped to bits {deepest}");
    for (first, then, words) in [(there, back, ["forward", "inverse"]), (back, there, ["inverse", "forward"])] {
        let answer = first(settings, band_height, filters, lent(picture));
        let after = left(picture, &answer);
        println!("{} {}{}", words[0], answered(&answer), numbers(&after));
        let answer = then(settings, band_height, filters, lent(&after));
        println!("{} {} {}", words[1], answered(&answer), compared(&left(&after, &answer), picture));
    }
}

/// Picture `k`: there and back, then with a finished plane's middle number replaced, then in the wrapped form.
fn picture(k: u32, settings: Settings, band_height: Option<u32>, filters: &[u8]) {
    let picture = generator::picture(settings.width, settings.height, settings.depths, k);
    let bands = band_height.map_or(String::new(), |rows| format!(" bands of {rows}"));
    println!("picture {k} {}{bands}", told_filters(settings, filters));

    let forward = reference::forward(settings, band_height, filters, lent(&picture));
    let finished = left(&picture, &forward);
    println!("forward {}{}", answered(&forward), numbers(&finished));

    let inverse = reference::inverse(settings, band_height, filters, lent(&finished));
    let back = format!("inverse {} {}", answered(&inverse), compared(&left(&finished, &inverse), &picture));
    println!("{back}");

    let plane = k % 3;
    let number = [0, -1, 65535, i32::MIN][k as usize / 4 % 4];
    let mut damaged = finished.clone();
    let middle = damaged[0].len() / 2;
    damaged[plane as usize][middle] = number;
    print!("plane {} damaged by {number}", plane + 1);
    let inverse = reference::inverse(settings, band_height, filters, lent(&damaged));
    print!(" inverse {}", answered(&inverse));
    if let Ok(other) = &inverse {
        let again = reference::forward(settings, band_height, filters, lent(other));
        assert_eq!(again.as_ref(), Ok(&damaged));
        print!("{} forward {}", numbers(other), answered(&again));
    }
    println!();
    println!("{back}");
    wrapped(settings, band_height, filters, &picture);
}

/// Picture `k` with one set of choices, and in bands, where band b has the filters of picture k + 4 b.
fn picture_and_bands(k: u32) {
    let (width, height) = [(1, 1), (1, 6), (7, 1), (2, 2), (3, 3), (5, 4), (4, 3)][k as usize % 7];
    let depths = [2 + k % 15, 16 - k % 15, 2 + k / 4 % 15];
    let settings = Settings { width, height, depths, transform: k % 4 };
    picture(k, settings, None, &choices(settings.transform, k / 4));
    let band_height = [1, 1, 2, 3, 1, 2][height as usize - 1];
    let sets: Vec<u8> =
        (0..height.div_ceil(band_height)).flat_map(|band| choices(settings.transform, k / 4 + band)).collect();
    picture(k, settings, Some(band_height), &sets);
}

fn transform_cases() {
    limits();
    (0..52).for_each(picture_and_bands);
}

/// A slope with the generator's noise on it, modulo the plane's M + 1.
fn slope(samples: u32, depths: [u32; 3], noise: u32, step: u32, seed: u32) -> Planes {
    let mut numbers = Congruential(seed);
    let mut level = |i: u32| seed + i * step + numbers.next() % noise;
    depths.map(|depth| (0..samples).map(|i| (level(i) % (1 << depth)) as i32).collect())
}

fn estimated(call: &str, filters: &[u8], answer: Result<Estimated, u32>) {
    let answer = match answer {
        Ok(Estimated { estimate, samples }) => format!("estimate {estimate} samples {samples}"),
        Err(refusal) => format!("refused {refusal}"),
    };
    println!("{call} {} {answer}", list(filters, ","));
}

/// The estimate under `filters`, and the search, with the scratch that the program lends.
fn search(settings: Settings, [noise, step]: [u32; 2], seed: u32, rounds: u32, planes: Planes) {
    println!("{} noise {noise} step {step} seed {seed} rounds {rounds}", told(settings));
    let scratch = Scratch { trial: [5000; 3], counters: 1785 };
    let filters = choices(settings.transform, seed);
    estimated("estimate", &filters, reference::estimate(settings, &filters, lent(&planes), scratch));
    match reference::search(settings, rounds, filters.len(), lent(&planes), scratch) {
        Ok(found) => estimated("search", &found.filters, Ok(found.estimated)),
        Err(refusal) => estimated("search", &filters, Err(refusal)),
    }
}

fn search_cases() {
    let sizes = [(1, 1), (2, 1), (1, 9), (3, 3), (16, 11), (40, 30), (64, 64), (17, 241), (100, 50)];
    let kinds = [[65536, 0], [1, 0], [2, 1], [1, 3], [9, 5]];
    for k in 0..45 {
        let (width, height) = sizes[k as usize % 9];
        let depths = [2 + k % 7, 8 - k % 7, 2 + k / 4 % 7];
        let settings = Settings { width, height, depths, transform: k % 4 };
        let [noise, step] = kinds[k as usize % 5];
        let planes = slope(width * height, depths, noise, step, k);
        search(settings, [noise, step], k, 1 + k / 4 % 4, planes);
    }
    for (width, height, depths, transform, rounds) in [
        (0, 3, [8; 3], 0, 1),
        (3, 3, [8, 8, 17], 0, 1),
        (3, 3, [8; 3], 4, 1),
        (3, 4, [8; 3], 0, 1),
        (3, 3, [9; 3], 1, 1),
        (3, 3, [8; 3], 0, 0),
        (3, 3, [8; 3], 0, 5),
        (3, 3, [8, 7, 8], 0, 1),
    ] {
        let settings = Settings { width, height, depths, transform };
        search(settings, [65536, 0], 1, rounds, slope(9, [8; 3], 65536, 0, 1));
    }
}

fn main() {
    let words: Vec<String> = std::env::args().skip(1).collect();
    match words.iter().map(String::as_str).collect::<Vec<_>>()[..] {
        ["transform_cases"] => transform_cases(),
        ["search_cases"] => search_cases(),
        _ => {
            eprint!("{USAGE}");
            exit(2)
        }
    }
}
