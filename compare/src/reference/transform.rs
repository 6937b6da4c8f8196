//! The four transforms, there and back.

use super::{filtered_at, Plane, Planes};

/// Transforms are numbered 0 to 3: RCT, YCoCg-R, RDgDb, LDgEb.
pub const TRANSFORMS: u32 = 4;

/// How many places the transform has.
pub fn places(transform: u32) -> usize {
    [4, 4, 2, 3][transform as usize]
}

/// The filter that gives 0.
const NULL: u8 = 12;

/// The forms of each transform, by how the result of a step is kept.
#[derive(Clone, Copy, Debug, PartialEq, Eq)]
pub enum Form {
    /// As it is.
    Plain,
    /// "Modulo 2^b, as 0 to M", with this b. Only the whole result is reduced: "RCT's sum of two filtered values is
    /// divided before".
    Wrapped(u32),
}

impl Form {
    fn kept(self, result: i64) -> i64 {
        match self {
            Form::Plain => result,
            Form::Wrapped(depth) => result.rem_euclid(1 << depth),
        }
    }
}

/// What every step is told.
struct Lifting<'a> {
    form: Form,
    transform: u32,
    width: usize,
    height: usize,
    /// How many rows a band has; none where all rows are one band.
    band_height: Option<u32>,
    /// One filter for each place, set after set from the top band.
    filters: &'a [u8],
}

impl Lifting<'_> {
    /// The filter of a place, from place 1 on: "A row uses its band's filters".
    fn filter(&self, row: usize, place: usize) -> u8 {
        let band = self.band_height.map_or(0, |rows| row / rows as usize);
        self.filters[band * places(self.transform) + place - 1]
    }

    /// A step: each sample of `plane` becomes the result for it and the sum of the filtered values of `terms`, which
    /// are planes with their places, as the form keeps it. Windows are those of the whole picture. "A step whose places
    /// are all null leaves its plane unchanged, both ways", and "is skipped row by row".
    fn step(&self, plane: &mut Plane, terms: &[(&Plane, usize)], result: impl Fn(i64, i64) -> i64) {
        for (y, row) in plane.chunks_mut(self.width).enumerate() {
            if terms.iter().all(|&(_, place)| self.filter(y, place) == NULL) {
                continue;
            }
            for (x, sample) in row.iter_mut().enumerate() {
                let filtered = |&(term, place): &(&Plane, usize)| {
                    filtered_at(term, self.width, self.height, self.filter(y, place), x, y)
                };
                *sample = self.form.kept(result(*sample, terms.iter().map(filtered).sum()));
            }
        }
    }
}

fn half(n: i64) -> i64 {
    n.div_euclid(2)
}

fn quarter(n: i64) -> i64 {
    n.div_euclid(4)
}

/// Every step of the transform in order; `filters` has one filter for each place, and if there is a band height as many
/// for each band of so many rows, from the top.
pub fn run(
    form: Form,
    transform: u32,
    width: usize,
    height: usize,
    band_height: Option<u32>,
    filters: &[u8],
    planes: Planes,
) -> Planes {
    let [mut c1, mut c2, mut c3] = planes;
    let lifting = Lifting { form, transform, width, height, band_height, filters };
    match transform {
        0 => {
            lifting.step(&mut c1, &[(&c2, 1)], |c, d| c - d);
            lifting.step(&mut c3, &[(&c2, 2)], |c, d| c - d);
            lifting.step(&mut c2, &[(&c1, 3), (&c3, 4)], |c, d| c + quarter(d));
        }
        1 => {
            lifting.step(&mut c1, &[(&c3, 1)], |c, d| c - d);
            lifting.step(&mut c3, &[(&c1, 2)], |c, d| c + half(d));
            lifting.step(&mut c2, &[(&c3, 3)], |c, d| c - d);
            lifting.step(&mut c3, &[(&c2, 4)], |c, d| c + half(d));
        }
        2 => {
            lifting.step(&mut c3, &[(&c2, 1)], |c, d| -c + d);
            lifting.step(&mut c2, &[(&c1, 2)], |c, d| -c + d);
        }
        3 => {
            lifting.step(&mut c2, &[(&c1, 1)], |c, d| -c + d);
            lifting.step(&mut c1, &[(&c2, 2)], |c, d| c - half(d));
            lifting.step(&mut c3, &[(&c1, 3)], |c, d| c - d);
        }
        _ => panic!("no transform {transform}"),
    }
    [c1, c2, c3]
}

/// The steps undone, the last one first, with the same filters.
pub fn undo(
    form: Form,
    transform: u32,
    width: usize,
    height: usize,
    band_height: Option<u32>,
    filters: &[u8],
    planes: Planes,
) -> Planes {
    let [mut c1, mut c2, mut c3] = planes;
    let lifting = Lifting { form, transform, width, height, band_height, filters };
    match transform {
        0 => {
            lifting.step(&mut c2, &[(&c1, 3), (&c3, 4)], |c, d| c - quarter(d));
            lifting.step(&mut c3, &[(&c2, 2)], |c, d| c + d);
            lifting.step(&mut c1, &[(&c2, 1)], |c, d| c + d);
        }
        1 => {
            lifting.step(&mut c3, &[(&c2, 4)], |c, d| c - half(d));
            lifting.step(&mut c2, &[(&c3, 3)], |c, d| c + d);
            lifting.step(&mut c3, &[(&c1, 2)], |c, d| c - half(d));
            lifting.step(&mut c1, &[(&c3, 1)], |c, d| c + d);
        }
        2 => {
            lifting.step(&mut c2, &[(&c1, 2)], |c, d| d - c);
            lifting.step(&mut c3, &[(&c2, 1)], |c, d| d - c);
        }
        3 => {
            lifting.step(&mut c3, &[(&c1, 3)], |c, d| c + d);
            lifting.step(&mut c1, &[(&c2, 2)], |c, d| c + half(d));
            lifting.step(&mut c2, &[(&c1, 1)], |c, d| d - c);
        }
        _ => panic!("no transform {transform}"),
    }
    [c1, c2, c3]
}
