//! Lent memory that ends where memory ends, or begins where it begins: one element read or written
//! beyond it stops the program.

use crate::graymaps;
use crate::library::{self, FinishedPlane, Refusal, Scratch, Settings};
use crate::random::{self, each_round, Random};
use crate::same::Case;
use compare::reference;
use std::ffi::c_void;
use std::marker::PhantomData;
use std::mem::size_of;

const PAGE: usize = 4096;

extern "C" {
    fn mmap(address: *mut c_void, length: usize, access: i32, flags: i32, file: i32, offset: i64) -> *mut c_void;
    fn mprotect(address: *mut c_void, length: usize, access: i32) -> i32;
    fn munmap(address: *mut c_void, length: usize) -> i32;
}

/// Memory between two pages that may not be touched, at one end of it or the other.
struct Edge<T> {
    map: *mut c_void,
    bytes: usize,
    start: usize,
    length: usize,
    kind: PhantomData<T>,
}

impl<T: Copy> Edge<T> {
    fn new(content: &[T], at_end: bool) -> Edge<T> {
        let used = (size_of_val(content)).next_multiple_of(PAGE).max(PAGE);
        let bytes = used + 2 * PAGE;
        // SAFETY: a new private map (flags MAP_PRIVATE | MAP_ANONYMOUS), its middle made readable and writable.
        let map = unsafe {
            let map = mmap(std::ptr::null_mut(), bytes, 0, 0x22, -1, 0);
            assert_ne!(map as isize, -1);
            assert_eq!(mprotect(map.byte_add(PAGE), used, 3), 0);
            map
        };
        let start = PAGE + if at_end { used - size_of_val(content) } else { 0 };
        assert_eq!(start % size_of::<T>(), 0);
        let mut edge = Edge { map, bytes, start, length: content.len(), kind: PhantomData };
        edge.slice().copy_from_slice(content);
        edge
    }

    fn slice(&mut self) -> &mut [T] {
        // SAFETY: within the readable and writable part of the map, aligned, zero or copied before.
        unsafe { std::slice::from_raw_parts_mut(self.map.byte_add(self.start).cast(), self.length) }
    }
}

impl<T> Drop for Edge<T> {
    fn drop(&mut self) {
        // SAFETY: the map is this value's own.
        unsafe { munmap(self.map, self.bytes) };
    }
}

fn planes(content: &[Vec<i32>; 3], at_end: bool) -> [Edge<i32>; 3] {
    content.each_ref().map(|plane| Edge::new(plane, at_end))
}

/// A call with bands.
type Banded = fn(Settings, u32, &[u8], [&mut [i32]; 3]) -> Result<(), Refusal>;

fn calls(random: &mut Random, at_end: bool, origin: &str) {
    let case = random::case(random, origin);
    let reference::Settings { width, height, depths, transform } = case.settings;
    let settings = Settings { width, height, depths, transform };
    let mut choices = Edge::new(&case.choices, at_end);
    let mut picture = planes(&case.planes, at_end);
    library::forward(settings, choices.slice(), picture.each_mut().map(Edge::slice)).expect(origin);
    library::inverse(settings, choices.slice(), picture.each_mut().map(Edge::slice)).expect(origin);
    let one_depth = Settings { depths: case.wrapped().settings.depths, ..settings };
    library::forward_wrapped(one_depth, choices.slice(), picture.each_mut().map(Edge::slice)).expect(origin);
    library::inverse_wrapped(one_depth, choices.slice(), picture.each_mut().map(Edge::slice)).expect(origin);
    let banded = random::banded(random, &case);
    let (rows, mut sets) = (banded.band_height.unwrap(), Edge::new(&banded.choices, at_end));
    for (settings, call) in [
        (settings, library::forward_banded as Banded),
        (settings, library::inverse_banded),
        (one_depth, library::forward_wrapped_banded),
        (one_depth, library::inverse_wrapped_banded),
    ] {
        call(settings, rows, sets.slice(), picture.each_mut().map(Edge::slice)).expect(origin);
    }
    for (plane, entry) in picture.iter_mut().zip(&case.planes) {
        assert_eq!(plane.slice(), entry, "{case}");
    }
    estimates(&case, settings, at_end);
}

/// The estimate and, of a small picture, the search, with trial planes and in place; scratch is exactly enough.
fn estimates(case: &Case, settings: Settings, at_end: bool) {
    let origin = case.origin.as_str();
    let mut choices = Edge::new(&case.choices, at_end);
    let mut picture = planes(&case.planes, at_end);
    let exact = case.trial.each_ref().map(|plane| plane[..case.samples()].to_vec());
    let mut trial = planes(&exact, at_end);
    let needed = reference::counters(settings.depths, settings.transform);
    let mut counters = Edge::new(&case.counters[..needed], at_end);
    for rounds in if case.samples() <= 100 { 0..=1 } else { 0..=0 } {
        let lent = picture.each_mut().map(|plane| &*plane.slice());
        let scratch = Scratch { trial: trial.each_mut().map(Edge::slice), counters: counters.slice() };
        let first = match rounds {
            0 => library::estimate(settings, choices.slice(), lent, scratch),
            _ => library::search(settings, rounds, choices.slice(), lent, scratch),
        };
        let lent = picture.each_mut().map(Edge::slice);
        let in_place = match rounds {
            0 => library::estimate_in_place(settings, choices.slice(), lent, counters.slice()),
            _ => library::search_in_place(settings, rounds, choices.slice(), lent, counters.slice()),
        };
        assert_eq!(in_place.expect(origin), first.expect(origin), "{case}");
    }
    for (plane, entry) in picture.iter_mut().zip(&case.planes) {
        assert_eq!(plane.slice(), entry, "{case}");
    }
}

#[test]
fn planes_at_edges() {
    each_round("planes_at_edges", 600, |random, origin| {
        let at_end = random.one_in(2);
        calls(random, at_end, origin);
    });
}

/// Writes the plane to a buffer at the edge, just long enough, and reads the file from there.
fn graymap(random: &mut Random, at_end: bool, origin: &str) {
    let reference::Settings { width, height, depths, transform } = random::settings(random);
    let of = random.one_of(&graymaps::planes(depths, transform));
    if graymaps::maxval(of) > 65_535 {
        return;
    }
    let reference::FinishedPlane { plane, .. } = of;
    let numbers = graymaps::samples(random, of, width as usize * height as usize);
    let mut samples = Edge::new(&numbers, at_end);
    let mut file = Edge::new(&vec![0; graymaps::length(width, height, of)], at_end);
    let of = FinishedPlane { depths, transform, plane };
    library::write_graymap(width, height, of, samples.slice(), file.slice()).expect(origin);
    samples.slice().fill(0);
    library::read_graymap(of, file.slice(), samples.slice()).expect(origin);
    assert_eq!(samples.slice(), numbers, "{origin}");
}

#[test]
fn graymaps_at_edges() {
    each_round("graymaps_at_edges", 600, |random, origin| {
        let at_end = random.one_in(2);
        graymap(random, at_end, origin);
    });
}

/// Both calls on a P6 file and the reader of a P5 file, for every prefix of the files; only the whole is accepted.
#[test]
fn files_at_edges() {
    for file in [&b"P6 #c\n2\t1\n#\r255 abcdef"[..], b"P6 #c\n2\t1\n#\r511 abcdefabcdef"] {
        for (length, at_end) in (0..=file.len()).flat_map(|length| [(length, true), (length, false)]) {
            let mut lent = Edge::new(&file[..length], at_end);
            let mut picture = planes(&[vec![0; 2], vec![0; 2], vec![0; 2]], at_end);
            let header = library::pixmap(lent.slice()).is_ok();
            let planes = library::pixmap_planes(lent.slice(), picture.each_mut().map(Edge::slice)).is_ok();
            assert_eq!([header, planes], [length == file.len(); 2]);
        }
    }
    let of = FinishedPlane { depths: [8; 3], transform: 2, plane: 2 };
    let file = b"P5 #c\n2\t1\n#\r510 \x00\x01\x01\x00";
    for (length, at_end) in (0..=file.len()).flat_map(|length| [(length, true), (length, false)]) {
        let mut lent = Edge::new(&file[..length], at_end);
        let mut plane = Edge::new(&[0; 2], at_end);
        assert_eq!(library::read_graymap(of, lent.slice(), plane.slice()).is_ok(), length == file.len());
    }
}
