//! The library's files given to Netpbm's own programs, and files that those programs made given to the library.
//! `../netpbm` runs these tests.

#[path = "../src/library.rs"]
mod library;

use compare::generator::Congruential;
use compare::reference::{self, Interval};
use library::{graymap_length, pixmap, pixmap_planes, read_graymap, write_graymap, FinishedPlane, Graymap};
use std::fs::{self, File};
use std::path::PathBuf;
use std::process::{id, Command, Stdio};

/// A folder for a test's files, removed at its end.
struct Folder(PathBuf);

impl Folder {
    fn new(test: &str) -> Folder {
        let folder = std::env::temp_dir().join(format!("rulantip-netpbm-{}-{test}", id()));
        fs::create_dir_all(&folder).unwrap();
        Folder(folder)
    }

    fn file(&self, name: &str, content: &[u8]) -> PathBuf {
        let path = self.0.join(name);
        fs::write(&path, content).unwrap();
        path
    }

    /// What the program writes for its words, with the file as its standard input.
    fn after(&self, words: &str, file: &[u8]) -> Vec<u8> {
        run(words, Stdio::from(File::open(self.file("input", file)).unwrap()))
    }

    /// What the file's header says in Netpbm's words.
    fn told(&self, file: &[u8]) -> String {
        let said = String::from_utf8(self.after("pamfile", file)).unwrap();
        let (_, told) = said.split_once(':').unwrap();
        told.split_whitespace().collect::<Vec<_>>().join(" ")
    }

    /// Width, height and samples as Netpbm writes them in plain text.
    fn plain(&self, file: &[u8]) -> ([u32; 2], Vec<i64>) {
        let text = String::from_utf8(self.after("pnmtoplainpnm", file)).unwrap();
        let mut numbers = text.split_whitespace().skip(1).map(|word| word.parse().unwrap());
        let [width, height, _] = [(); 3].map(|()| numbers.next().unwrap());
        ([width as u32, height as u32], numbers.collect())
    }
}

impl Drop for Folder {
    fn drop(&mut self) {
        fs::remove_dir_all(&self.0).unwrap();
    }
}

fn run(words: &str, input: Stdio) -> Vec<u8> {
    let mut words = words.split(' ');
    let mut command = Command::new(words.next().unwrap());
    let output = command.args(words).stdin(input).output().unwrap_or_else(|error| panic!("{command:?}: {error}"));
    assert!(output.status.success(), "{command:?}: {}", String::from_utf8_lossy(&output.stderr));
    output.stdout
}

fn plane(depths: [u32; 3], transform: u32, plane: u32) -> FinishedPlane {
    FinishedPlane { depths, transform, plane }
}

fn range(of: FinishedPlane) -> Interval {
    reference::ranges(of.depths, of.transform)[of.plane as usize - 1]
}

/// Planes with maxvals of 3, 94, 126, 254, 256, 510, 765, 892, 1,022, 57,340 and 65,534.
fn planes() -> [FinishedPlane; 11] {
    [
        plane([2; 3], 2, 1),
        plane([5, 6, 5], 0, 1),
        plane([5, 6, 5], 2, 2),
        plane([7; 3], 3, 2),
        plane([8, 7, 3], 0, 2),
        plane([8; 3], 2, 2),
        plane([8; 3], 3, 3),
        plane([8; 3], 1, 3),
        plane([9; 3], 0, 2),
        plane([14; 3], 1, 3),
        plane([15; 3], 0, 2),
    ]
}

/// Planes whose maxval PNG keeps: 255 and 65,535, from 0 on and from below.
fn full_planes() -> [FinishedPlane; 4] {
    [plane([8; 3], 2, 1), plane([2, 7, 8], 0, 2), plane([16; 3], 2, 1), plane([15, 2, 14], 3, 3)]
}

fn all_planes() -> Vec<FinishedPlane> {
    [&planes()[..], &full_planes()].concat()
}

/// Numbers of the plane's range; the first is its lowest, the last its highest.
fn numbers(of: FinishedPlane, count: usize) -> Vec<i32> {
    let Interval { low, high } = range(of);
    let mut random = Congruential(of.plane + count as u32);
    let mut numbers: Vec<i32> =
        (0..count).map(|_| (low + i64::from(random.next()) % (high - low + 1)) as i32).collect();
    (numbers[0], numbers[count - 1]) = (low as i32, high as i32);
    numbers
}

fn written(width: u32, height: u32, of: FinishedPlane, numbers: &[i32]) -> Vec<u8> {
    let mut file = vec![0; graymap_length(width, height)];
    let length = write_graymap(width, height, of, numbers, &mut file).unwrap();
    file.truncate(length);
    file
}

fn read(of: FinishedPlane, file: &[u8], width: u32, height: u32) -> Vec<i32> {
    let mut samples = vec![0; width as usize * height as usize];
    assert_eq!(read_graymap(of, file, &mut samples), Ok(Graymap { width, height }), "{of:?}");
    samples
}

#[test]
#[ignore = "needs Netpbm's programs"]
fn written_graymaps_are_graymaps() {
    let folder = Folder::new("written");
    for of in all_planes() {
        let maxval = range(of).width();
        for (width, height) in [(2, 1), (1, 7), (33, 20)] {
            let numbers = numbers(of, width as usize * height as usize);
            let file = written(width, height, of, &numbers);
            assert_eq!(folder.told(&file), format!("PGM raw, {width} by {height} maxval {maxval}"));
            let above_lowest = numbers.iter().map(|&number| i64::from(number) - range(of).low).collect();
            assert_eq!(folder.plain(&file), ([width, height], above_lowest), "{of:?}");
        }
    }
}

#[test]
#[ignore = "needs Netpbm's programs"]
fn parts_cut_out() {
    let folder = Folder::new("parts");
    for of in all_planes() {
        let numbers = numbers(of, 13 * 9);
        let whole = written(13, 9, of, &numbers);
        for (left, top, width, height) in [(0, 0, 13, 9), (3, 2, 5, 4), (12, 8, 1, 1), (0, 8, 13, 1)] {
            let words = format!("pamcut -left {left} -top {top} -width {width} -height {height}");
            let part: Vec<i32> =
                (top..top + height).flat_map(|row| &numbers[13 * row + left..][..width]).copied().collect();
            assert_eq!(read(of, &folder.after(&words, &whole), width as u32, height as u32), part, "{of:?} {words}");
        }
    }
}

#[test]
#[ignore = "needs Netpbm's programs"]
fn through_png() {
    let folder = Folder::new("png");
    for of in full_planes() {
        let numbers = numbers(of, 40 * 30);
        let png = folder.after("pnmtopng", &written(40, 30, of, &numbers));
        assert!(png.starts_with(b"\x89PNG"));
        assert_eq!(read(of, &folder.after("pngtopnm", &png), 40, 30), numbers, "{of:?}");
    }
}

/// A slope from 0 to maxval, made with that maxval and brought to it from another.
#[test]
#[ignore = "needs Netpbm's programs"]
fn graymaps_made_by_netpbm() {
    let folder = Folder::new("made");
    for of in all_planes() {
        let maxval = range(of).width();
        let other = run("pgmramp -lr -maxval=65535 31 5", Stdio::null());
        let deep = folder.after(&format!("pamdepth {maxval}"), &other);
        for (file, width, height) in [
            (run(&format!("pgmramp -tb -maxval={maxval} 7 29"), Stdio::null()), 7, 29),
            (run(&format!("pgmramp -ellipse -maxval={maxval} 20 20"), Stdio::null()), 20, 20),
            (deep, 31, 5),
        ] {
            let above_lowest: Vec<i64> =
                read(of, &file, width, height).iter().map(|&number| i64::from(number) - range(of).low).collect();
            assert!(above_lowest.iter().any(|&number| number > maxval / 2));
            assert_eq!(folder.plain(&file), ([width, height], above_lowest), "{of:?}");
        }
    }
}

/// Three slopes as R, G and B at every depth.
#[test]
#[ignore = "needs Netpbm's programs"]
fn pixmaps_made_by_netpbm() {
    let folder = Folder::new("pixmaps");
    for depth in 2..=16 {
        let maxval = (1 << depth) - 1;
        let slopes = ["lr", "tb", "ellipse"].map(|kind| {
            let slope = run(&format!("pgmramp -{kind} -maxval={maxval} 19 11"), Stdio::null());
            folder.file(kind, &slope).display().to_string()
        });
        let file = run(&format!("rgb3toppm {}", slopes.join(" ")), Stdio::null());
        assert_eq!(folder.told(&file), format!("PPM raw, 19 by 11 maxval {maxval}"));
        let header = pixmap(&file).unwrap();
        assert_eq!((header.width, header.height, header.depth), (19, 11, depth));
        let mut planes = [(); 3].map(|()| vec![0; 19 * 11]);
        pixmap_planes(&file, planes.each_mut().map(Vec::as_mut_slice)).unwrap();
        let pixels = (0..19 * 11).flat_map(|i| planes.each_ref().map(|plane| i64::from(plane[i]))).collect();
        assert_eq!(folder.plain(&file), ([19, 11], pixels), "depth {depth}");
    }
}
