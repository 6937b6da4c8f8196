//! Pictures so small that all planes can be tried. What an inverse must answer is read off the
//! forward direction alone: which planes some picture goes to.

use crate::lent::{Lent, Word};
use crate::random::{self, each_round};
use crate::same::{Case, InPlace, FORWARD_WRAPPED, INVERSE, INVERSE_WRAPPED};
use compare::reference::{greatest, places, ranges, run, Form, Interval, Settings, TRANSFORMS};
use std::array::from_fn;
use std::collections::HashMap;

/// Three planes of N samples.
type Planes<const N: usize> = [[i32; N]; 3];

/// Every plane in the range.
fn all_planes<const N: usize>(range: Interval) -> Vec<[i32; N]> {
    let numbers = range.width() + 1;
    let sample = |code: i64, i: usize| (range.low + code / numbers.pow(i as u32) % numbers) as i32;
    (0..numbers.pow(N as u32)).map(|code| from_fn(|i| sample(code, i))).collect()
}

/// Every three planes in the ranges.
fn each_planes<const N: usize>(ranges: [Interval; 3], mut with: impl FnMut(Planes<N>)) {
    let [all1, all2, all3] = ranges.map(all_planes);
    for &c1 in &all1 {
        for &c2 in &all2 {
            for &c3 in &all3 {
                with([c1, c2, c3]);
            }
        }
    }
}

/// Which planes come of which.
type Reached<const N: usize> = HashMap<Planes<N>, Planes<N>>;

/// What a call is told.
#[derive(Clone, Copy, Debug)]
struct Told<'a> {
    settings: Settings,
    band_height: Option<u32>,
    filters: &'a [u8],
}

/// Which planes every picture goes to.
fn finished<const N: usize>(form: Form, told: Told) -> Reached<N> {
    let Settings { width, height, transform, .. } = told.settings;
    let mut finished = HashMap::new();
    each_planes(sample_ranges(told.settings), |picture: Planes<N>| {
        let whole = picture.map(|plane| plane.map(i64::from).to_vec());
        let planes = run(form, transform, width as usize, height as usize, told.band_height, told.filters, whole);
        finished.insert(picture, planes.map(|plane| from_fn(|i| plane[i] as i32)));
    });
    finished
}

/// Which picture goes to which planes; no two go to the same.
fn pictures<const N: usize>(finished: &Reached<N>) -> Reached<N> {
    let pictures: Reached<N> = finished.iter().map(|(&picture, &planes)| (planes, picture)).collect();
    assert_eq!(pictures.len(), finished.len());
    pictures
}

/// The ranges of a picture's planes.
fn sample_ranges(settings: Settings) -> [Interval; 3] {
    greatest(settings.depths).map(|high| Interval { low: 0, high })
}

/// Three planes, each between guard words.
fn guarded<const N: usize>(planes: Planes<N>) -> [[[i32; N]; 3]; 3] {
    let guards = |part: usize| from_fn(|i| i32::guard(part * N + i));
    from_fn(|plane| [guards(2 * plane), planes[plane], guards(2 * plane + 1)])
}

/// A call, the ranges of the planes to try it on, and what it must leave: planes that nothing is reached from are refused
/// with the number.
struct Every<'a, const N: usize> {
    call: InPlace,
    ranges: [Interval; 3],
    reached: &'a Reached<N>,
    refusal: u32,
}

impl<const N: usize> Every<'_, N> {
    fn try_planes(&self, told: Told, origin: &str) {
        let Told { settings, band_height, filters } = told;
        let mut choices = Lent::new(filters, N);
        let lent_choices = (choices.pointer().cast_const(), choices.len());
        let mut accepted = 0;
        each_planes(self.ranges, |planes: Planes<N>| {
            let mut lent = guarded(planes);
            let memory: *mut i32 = lent.as_mut_ptr().cast();
            // SAFETY: each pointer points to as many elements as said, and no two overlap.
            let answer = unsafe {
                let lent_planes = [1, 4, 7].map(|part| (memory.add(part * N), N));
                self.call.answer(settings, band_height, lent_choices, lent_planes)
            };
            let after = self.reached.get(&planes);
            accepted += usize::from(after.is_some());
            let (number, after) = after.map_or((self.refusal, planes), |after| (0, *after));
            assert!(
                answer == number && lent == guarded(after),
                "{told:?}, planes {planes:?}: answer {answer} and memory {lent:?}, \
                 expected {number} and {:?}\n{origin}",
                guarded(after)
            );
        });
        assert_eq!(choices.differs("choices", filters), None);
        let pictures = 1 << (N as u32 * settings.depths.iter().sum::<u32>());
        assert_eq!(accepted, pictures, "every picture and its planes lie within the ranges\n{origin}");
    }
}

/// The ranges, wider by `beyond` at both ends.
fn around(ranges: [Interval; 3], beyond: i64) -> [Interval; 3] {
    ranges.map(|range| Interval { low: range.low - beyond, high: range.high + beyond })
}

/// The inverse on every three planes within the ranges, and outside by up to `beyond`.
fn every_inverse<const N: usize>(told: Told, beyond: i64, origin: &str) {
    let reached = &pictures::<N>(&finished(Form::Plain, told));
    let ranges = around(ranges(told.settings.depths, told.settings.transform), beyond);
    Every { call: INVERSE, ranges, reached, refusal: 12 }.try_planes(told, origin);
}

/// Both calls of the wrapped form on every three planes of 0 to M, and outside by up to `beyond`: each of them is a picture,
/// and what exactly one picture goes to.
fn every_wrapped<const N: usize>(told: Told, beyond: i64, origin: &str) {
    let finished = &finished::<N>(Form::Wrapped(told.settings.depths[0]), told);
    let pictures = &pictures(finished);
    let ranges = around(sample_ranges(told.settings), beyond);
    for (call, reached) in [(FORWARD_WRAPPED, finished), (INVERSE_WRAPPED, pictures)] {
        Every { call, ranges, reached, refusal: 11 }.try_planes(told, origin);
    }
}

/// Told nothing of bands.
fn plain(settings: Settings, filters: &[u8]) -> Told<'_> {
    Told { settings, band_height: None, filters }
}

/// Every choice of the filters for the places.
fn all_choices(filters: &[u8], places: usize) -> impl Iterator<Item = Vec<u8>> + '_ {
    let choice = move |code: usize, place: usize| filters[code / filters.len().pow(place as u32) % filters.len()];
    (0..filters.len().pow(places as u32)).map(move |code| (0..places).map(|place| choice(code, place)).collect())
}

/// One pixel with every choice of filters at depth 2. At unequal depths a mean, the sample itself and null: of one pixel
/// every mean is the sample.
fn one_pixel(transform: u32) {
    const UNEQUAL: [[u32; 3]; 8] =
        [[2, 2, 3], [2, 3, 2], [3, 2, 2], [2, 3, 3], [3, 2, 3], [3, 3, 2], [2, 4, 3], [4, 2, 3]];
    let every: Vec<u8> = (0..=12).collect();
    let all = |depths, filters: &[u8]| {
        let settings = Settings { width: 1, height: 1, depths, transform };
        all_choices(filters, places(transform))
            .for_each(|filters| every_inverse::<1>(plain(settings, &filters), 1, ""));
    };
    all([2; 3], &every);
    for depths in UNEQUAL {
        all(depths, &[0, 5, 12]);
    }
}

#[test]
fn one_pixel_rct() {
    one_pixel(0);
}

#[test]
fn one_pixel_ycocg_r() {
    one_pixel(1);
}

#[test]
fn one_pixel_rdgdb() {
    one_pixel(2);
}

#[test]
fn one_pixel_ldgeb() {
    one_pixel(3);
}

/// The wrapped forms of one pixel with every choice of filters at depth 2, and outside 0 to 3 by one.
#[test]
fn one_pixel_wrapped() {
    let every: Vec<u8> = (0..=12).collect();
    for transform in 0..TRANSFORMS {
        let settings = Settings { width: 1, height: 1, depths: [2; 3], transform };
        all_choices(&every, places(transform)).for_each(|filters| every_wrapped::<1>(plain(settings, &filters), 1, ""));
    }
}

/// Two and three pixels with some choices of filters.
#[test]
fn more_pixels_wrapped() {
    each_round("more_pixels_wrapped", 4, |random, origin| {
        for transform in 0..TRANSFORMS {
            let filters = random::choices(random, places(transform));
            let (width, height) = random.one_of(&[(2, 1), (1, 2)]);
            every_wrapped::<2>(plain(Settings { width, height, depths: [2; 3], transform }, &filters), 1, origin);
            let (width, height) = random.one_of(&[(3, 1), (1, 3)]);
            every_wrapped::<3>(plain(Settings { width, height, depths: [2; 3], transform }, &filters), 0, origin);
        }
    });
}

/// Two pixels with some choices of filters.
#[test]
fn two_pixels() {
    each_round("two_pixels", 3, |random, origin| {
        for transform in 0..TRANSFORMS {
            for depths in [[2; 3], random.one_of(&[[2, 2, 3], [2, 3, 2], [3, 2, 2]])] {
                let (width, height) = random.one_of(&[(2, 1), (1, 2)]);
                let filters = random::choices(random, places(transform));
                every_inverse::<2>(plain(Settings { width, height, depths, transform }, &filters), 0, origin);
            }
        }
    });
}

/// A column of rows with bands: of one row or, if there are three rows, of two.
#[test]
fn columns_with_bands() {
    each_round("columns_with_bands", 4, |random, origin| {
        for transform in 0..TRANSFORMS {
            for (height, rows) in [(2, 1), (3, random.one_of(&[1, 2]))] {
                let settings = Settings { width: 1, height, depths: [2; 3], transform };
                let case = random::case_without_scratch(random, settings, origin);
                let Case { band_height, choices, .. } = random::banded_by(random, &case, rows);
                let told = Told { settings, band_height, filters: &choices };
                if height == 2 {
                    every_inverse::<2>(told, 0, origin);
                    every_wrapped::<2>(told, 1, origin);
                } else {
                    every_wrapped::<3>(told, 0, origin);
                }
            }
        }
    });
}
