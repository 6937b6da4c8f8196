//! Builds the example programs by their own makefiles, runs them, and holds what they print to the
//! reference. The header is also compiled as C++, and its macros and its table of ranges are tried.

use compare::generator;
use compare::reference::{all_depths, counters, forward, forward_wrapped, graymap_file, places, ranges};
use compare::reference::{pixmap_header, pixmap_planes, report, report_line, sample_bytes, search, search_in_place};
use compare::reference::{FinishedPlane, Scratch, Settings, Space, NAMES, REPORT_HEAD};
use std::fmt::Write;
use std::fs;
use std::path::{Path, PathBuf};
use std::process::{Command, Output};

fn root() -> PathBuf {
    Path::new(env!("CARGO_MANIFEST_DIR")).join("..")
}

/// A folder of the test's own for what it makes.
fn folder(name: &str) -> PathBuf {
    let folder = Path::new(env!("CARGO_TARGET_TMPDIR")).join(name);
    fs::create_dir_all(&folder).unwrap();
    folder
}

fn run(command: &mut Command) -> Output {
    command.output().unwrap_or_else(|error| panic!("{command:?}: {error}"))
}

/// Builds the programs of a language in the folder.
fn build(example: &str, out: &Path) {
    let archive = fs::canonicalize(env!("RULANTIP_ARCHIVE_FOLDER")).expect("the folder of librulantip.a");
    let made = run(Command::new("make")
        .arg("-B")
        .arg("-C")
        .arg(root().join("examples").join(example))
        .arg(format!("ARCHIVE={}", archive.display()))
        .arg(format!("OUT={}", out.display())));
    assert!(made.status.success(), "{}", String::from_utf8_lossy(&made.stderr));
}

/// What an example prints of finished planes that then come back.
fn held(planes: [Vec<i32>; 3]) -> String {
    let mut text = String::new();
    for (plane, number) in planes.iter().zip(1..) {
        let (low, high) = (plane.iter().min().unwrap(), plane.iter().max().unwrap());
        writeln!(text, "plane {number} holds {low} to {high}").unwrap();
    }
    writeln!(text, "all {} samples came back", 3 * planes[0].len()).unwrap();
    text
}

/// Width, height and depth of a file with no fault, and its planes.
fn picture(file: &[u8]) -> ([u32; 3], [Vec<i32>; 3]) {
    let header = pixmap_header(file).unwrap();
    let samples = header.width as usize * header.height as usize;
    ([header.width, header.height, header.depth], pixmap_planes(file, [samples; 3]).unwrap())
}

/// What the example prints for a file with no fault.
fn expected(file: &[u8]) -> String {
    let ([width, height, depth], planes) = picture(file);
    let planes = planes.each_ref().map(Vec::as_slice);
    let samples = planes[0].len();
    let mut text = format!("width {width} height {height} depth {depth}\n{REPORT_HEAD}");
    let mut best: Option<(u32, Settings, Vec<u8>)> = None;
    for (transform, name) in (0..4).zip(NAMES) {
        let settings = Settings { width, height, depths: [depth; 3], transform };
        let scratch = Scratch { trial: [samples; 3], counters: usize::MAX };
        let found = search(settings, 2, places(transform), planes, scratch).unwrap();
        text += &report_line(name, &found);
        let estimate = found.estimated.estimate;
        if best.as_ref().is_none_or(|(lowest, ..)| estimate < *lowest) {
            best = Some((estimate, settings, found.filters));
        }
    }
    let (_, settings, filters) = best.unwrap();
    writeln!(text, "best {}", NAMES[settings.transform as usize]).unwrap();
    text += &held(forward(settings, None, &filters, planes).unwrap());
    writeln!(text, "wrapped, in {} bytes", 3 * samples * sample_bytes((1 << depth) - 1)).unwrap();
    text += &held(forward_wrapped(settings, None, &filters, planes).unwrap());
    let rows = height.min(16);
    writeln!(text, "in bands of {rows} rows, every second one left as it is").unwrap();
    let nulls = vec![12; filters.len()];
    let set = |band: u32| if band % 2 == 0 { &filters } else { &nulls };
    let sets: Vec<u8> = (0..height.div_ceil(rows)).flat_map(|band| set(band).clone()).collect();
    text + &held(forward(settings, Some(rows), &sets, planes).unwrap())
}

fn files() -> Vec<Vec<u8>> {
    let generated = |width, height, depth, seed| {
        generator::pixmap(width, height, depth, &generator::picture(width, height, [depth; 3], seed))
    };
    // A smooth picture with noise, more samples than are counted.
    let (width, height) = (90u32, 70u32);
    let mut noise = generator::Congruential(7);
    let smooth = [3, 2, 1].map(|slope| {
        let level = |i: u32| (40 + slope * (i % width) / 2 + i / width) as i32;
        (0..width * height).map(|i| level(i) + (noise.next() % 3) as i32).collect()
    });
    vec![
        b"P6\n2 1\n255\n\x0a\x0a\x3c\x0a\x0a\x3c".to_vec(),
        generated(1, 1, 2, 1),
        generated(13, 7, 5, 2),
        generated(70, 60, 8, 3),
        generated(5, 40, 9, 4),
        generated(6, 5, 15, 5),
        generated(3, 3, 16, 6),
        generator::pixmap(width, height, 8, &smooth),
    ]
}

/// Files that the examples refuse, and what they say of them.
const REFUSED: [(&[u8], &str); 8] = [
    (b"P5 1 1 255 abc", "refused 1, the header"),
    (b"P6 1 0 255 ", "refused 2, width"),
    (b"P6 1 1 1 abc", "refused 3, maxval"),
    (b"P6 1 1 512 abcdef", "refused 3, maxval"),
    (b"P6 1 1 255 ab", "refused 4, other than"),
    (b"P6 1 1 511 abc", "refused 4, other than"),
    (b"P6 1 1 3 \x01\x02\x04", "refused 11, a sample"),
    (b"P6 1 1 511 \x01\xff\x01\xff\x02\x00", "refused 11, a sample"),
];

/// What the program says of its words; it must find a fault.
fn refused(program: &Path, words: &[&Path]) -> String {
    let output = run(Command::new(program).args(words));
    assert_eq!(output.status.code(), Some(1));
    String::from_utf8_lossy(&output.stderr).to_string()
}

/// What the program prints for its words; it must find no fault.
fn printed(program: &Path, words: &[&Path]) -> String {
    let output = run(Command::new(program).args(words));
    assert_eq!(String::from_utf8_lossy(&output.stderr), "");
    assert!(output.status.success());
    String::from_utf8_lossy(&output.stdout).to_string()
}

fn example(name: &str) {
    let out = folder(name);
    build(name, &out);
    let [program, picture] = ["roundtrip", "picture.ppm"].map(|name| out.join(name));
    for file in files() {
        fs::write(&picture, &file).unwrap();
        assert_eq!(printed(&program, &[&picture]), expected(&file));
    }
    for (file, words) in REFUSED {
        fs::write(&picture, file).unwrap();
        let said = refused(&program, &[&picture]);
        assert!(said.contains(words), "{said}");
    }
    refused(&program, &[&out.join("none.ppm")]);
}

/// What `graymaps` prints of a search, and the three files that it writes, or the refusal of the first that it cannot write.
fn graymaps(file: &[u8]) -> Result<(String, [Vec<u8>; 3]), u32> {
    let ([width, height, depth], planes) = picture(file);
    let settings = Settings { width, height, depths: [depth; 3], transform: 2 };
    let planes = planes.each_ref().map(Vec::as_slice);
    let found = search_in_place(settings, 2, 2, planes, usize::MAX).unwrap();
    let finished = forward(settings, None, &found.filters, planes).unwrap();
    let file = |number: usize| {
        let of = FinishedPlane { depths: [depth; 3], transform: 2, plane: number as u32 };
        graymap_file(width, height, of, &finished[number - 1], usize::MAX)
    };
    Ok((report_line("RDgDb", &found), [file(1)?, file(2)?, file(3)?]))
}

#[test]
fn c_graymaps() {
    let out = folder("graymaps");
    build("c", &out);
    let [program, picture, prefix] = ["graymaps", "picture.ppm", "plane"].map(|name| out.join(name));
    let names = [1, 2, 3].map(|number| out.join(format!("plane.{number}.pgm")));
    for file in files() {
        fs::write(&picture, &file).unwrap();
        let Ok((mut text, expected)) = graymaps(&file) else {
            let said = refused(&program, &[&picture, &prefix]);
            assert!(said.contains("plane.2.pgm: refused 13, the plane's highest"), "{said}");
            continue;
        };
        for (name, file) in names.iter().zip(&expected) {
            writeln!(text, "{} has {} bytes", name.display(), file.len()).unwrap();
        }
        let (_, planes) = self::picture(&file);
        writeln!(text, "all {} samples came back", 3 * planes[0].len()).unwrap();
        assert_eq!(printed(&program, &[&picture, &prefix]), text);
        assert_eq!(names.each_ref().map(|name| fs::read(name).unwrap()), expected);
    }
    for (file, words) in REFUSED {
        fs::write(&picture, file).unwrap();
        let said = refused(&program, &[&picture, &prefix]);
        assert!(said.contains(words), "{said}");
    }
}

/// What `preview` prints: the least and the most of each float, told in quarters.
fn previewed(file: &[u8]) -> String {
    let (_, planes) = picture(file);
    let mut text = String::new();
    for (space, floats) in
        [(Space::Hvsct, ["HVSCT Y", "HVSCT Cd", "HVSCT Ce"]), (Space::Ycocg, ["YCoCg Y", "YCoCg Co", "YCoCg Cg"])]
    {
        let quarters = (0..planes[0].len()).map(|i| space.quarters(planes.each_ref().map(|plane| plane[i].into())));
        let quarters: Vec<[i64; 3]> = quarters.collect();
        for (k, name) in floats.iter().enumerate() {
            let decimals = |number: Option<i64>| format!("{:.2}", number.unwrap() as f64 / 4.0);
            let [least, most] =
                [quarters.iter().map(|q| q[k]).min(), quarters.iter().map(|q| q[k]).max()].map(decimals);
            writeln!(text, "{name} {least} to {most}").unwrap();
        }
    }
    writeln!(text, "all {} pixels came back", planes[0].len()).unwrap();
    text
}

#[test]
fn c_preview() {
    let out = folder("preview");
    build("c", &out);
    let [program, picture] = ["preview", "picture.ppm"].map(|name| out.join(name));
    for file in files() {
        fs::write(&picture, &file).unwrap();
        assert_eq!(printed(&program, &[&picture]), previewed(&file));
    }
    for (file, words) in REFUSED {
        fs::write(&picture, file).unwrap();
        let said = refused(&program, &[&picture]);
        assert!(said.contains(words), "{said}");
    }
}

#[test]
fn c_example() {
    example("c");
}

#[test]
fn rust_example() {
    example("rust");
}

/// The outputs that README.md and examples/README.md show, of the report and of the examples.
#[test]
fn shown_outputs() {
    let shown = |document: &str, output: &str| {
        let text = fs::read_to_string(root().join(document)).unwrap();
        let block: String = output.lines().map(|line| format!("    {line}\n")).collect();
        assert!(text.contains(&block), "{document} does not show\n{block}");
    };
    shown("README.md", &report(&fs::read(root().join("samples/weave.ppm")).unwrap()));
    let file = b"P6\n2 1\n255\n\x0a\x0a\x3c\x0a\x0a\x3c";
    shown("examples/README.md", &expected(file));
    shown("examples/README.md", &graymaps(file).unwrap().0);
    shown("examples/README.md", &previewed(file));
}

/// What the archive asks of a program that links it: `memset`, and nothing else of the C library.
#[test]
fn archive_alone() {
    let archive = Path::new(env!("RULANTIP_ARCHIVE_FOLDER")).join("librulantip.a");
    let listed = run(Command::new("nm").arg("-u").arg(&archive));
    assert!(listed.status.success(), "{}", String::from_utf8_lossy(&listed.stderr));
    let text = String::from_utf8(listed.stdout).unwrap();
    let asked: Vec<&str> = text.lines().filter_map(|line| line.trim_start().strip_prefix("U ")).collect();
    assert_eq!(asked, ["memset"]);
}

/// The header compiles alone in C and in C++ of several standards, and its macros give the most that is needed where no
/// depth is above theirs.
#[test]
fn header_alone() {
    let source = folder("header").join("header.c");
    let mut text = String::from("#include \"rulantip.h\"\n#include \"rulantip.h\"\n");
    for deepest in 2..=16 {
        let within = |depths: &[u32; 3]| depths.iter().all(|&depth| depth <= deepest);
        let most = |depths| (0..4).map(|transform| counters(depths, transform)).max().unwrap();
        let most = all_depths().filter(within).map(most).max().unwrap();
        writeln!(text, "typedef char at_{deepest}[RULANTIP_COUNTERS({deepest}) == {most} ? 1 : -1];").unwrap();
    }
    text += "typedef char most[RULANTIP_COUNTERS(16) == RULANTIP_COUNTERS_MAX ? 1 : -1];\n";
    for (width, height) in [(1usize, 1usize), (3, 700), (8192, 8192)] {
        let longest = "P5\n8192 8192\n65535\n".len() + 2 * width * height;
        writeln!(text, "typedef char l_{width}[RULANTIP_P5_LENGTH({width}, {height}) == {longest} ? 1 : -1];").unwrap();
    }
    fs::write(&source, text).unwrap();
    for (compiler, language, standard) in
        [("gcc", "c", "c99"), ("gcc", "c", "c17"), ("g++", "c++", "c++98"), ("g++", "c++", "c++17")]
    {
        let compiled = run(Command::new(compiler)
            .args(["-Wall", "-Wextra", "-Werror", "-fsyntax-only", "-x", language])
            .arg(format!("-std={standard}"))
            .arg("-I")
            .arg(root().join("include"))
            .arg(&source));
        assert!(compiled.status.success(), "{standard}: {}", String::from_utf8_lossy(&compiled.stderr));
    }
}

/// The header's table of ranges as a C program that prints them for every three depths.
fn program_of_ranges(header: &str) -> String {
    let (_, table) = header.split_once("RANGES of finished planes").expect("the table of ranges");
    let row = |line: &str| {
        let (_, row) = line.split_once("plane ")?;
        let (low, high) = row.strip_prefix(['1', '2', '3'])?.split_once(" to ")?;
        Some(format!("printf(\"%ld %ld\\n\", (long)({low}), (long)({high}));\n"))
    };
    let rows: Vec<String> = table.lines().filter_map(row).take(12).collect();
    let (l, rest) = table.split_once("l = ").and_then(|(_, rest)| rest.split_once(" and u = ")).expect("l and u");
    let (u, _) = rest.split_once(':').expect("the end of u");
    format!(
        "#include <stdio.h>\n\
         static long max(long a, long b) {{ return a > b ? a : b; }}\n\
         int main(void)\n{{\n\
         for (int b1 = 2; b1 <= 16; b1++) for (int b2 = 2; b2 <= 16; b2++) for (int b3 = 2; b3 <= 16; b3++) {{\n\
         long M1 = (1L << b1) - 1, M2 = (1L << b2) - 1, M3 = (1L << b3) - 1, l = {l}, u = {u};\n\
         {}}}\n}}\n",
        rows.concat()
    )
}

/// The table of ranges in the header gives what the reference finds step by step.
#[test]
fn ranges_of_the_header() {
    let header = fs::read_to_string(root().join("include/rulantip.h")).unwrap();
    let [source, program] = ["ranges.c", "ranges"].map(|name| folder("header").join(name));
    fs::write(&source, program_of_ranges(&header)).unwrap();
    let made =
        run(Command::new("gcc").args(["-std=c99", "-Wall", "-Wextra", "-Werror", "-o"]).arg(&program).arg(&source));
    assert!(made.status.success(), "{}", String::from_utf8_lossy(&made.stderr));
    let printed = String::from_utf8(run(&mut Command::new(&program)).stdout).unwrap();
    let mut lines = printed.lines();
    for depths in all_depths() {
        for (transform, name) in (0..4).zip(NAMES) {
            for (range, plane) in ranges(depths, transform).into_iter().zip(1..) {
                let expected = format!("{} {}", range.low, range.high);
                assert_eq!(lines.next(), Some(expected.as_str()), "{name} plane {plane} depths {depths:?}");
            }
        }
    }
    assert_eq!(lines.next(), None);
}
