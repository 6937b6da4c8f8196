//! Preview pixels of both spaces, there and back. Where all pixels can be tried, what goes back is read off the forward
//! direction alone.

use crate::library::c::{self, RulantipRgb};
use crate::random::{each_round, Random};
use compare::reference::{self, greatest, quarters, RefusalNumber, Space, SPACES};
use std::collections::HashMap;
use std::fmt;

/// Everything that a forward call is given.
#[derive(Clone)]
pub struct Pixel {
    pub space: Space,
    pub depth: u32,
    pub samples: [i32; 3],
    /// How to make the case again.
    pub origin: String,
}

impl fmt::Display for Pixel {
    fn fmt(&self, f: &mut fmt::Formatter<'_>) -> fmt::Result {
        writeln!(f, "{}\n{:?} depth {} samples {:?}", self.origin, self.space, self.depth, self.samples)
    }
}

impl Pixel {
    /// The floats, or why the call refuses.
    pub fn call(&self) -> Result<[f64; 3], RefusalNumber> {
        let call: c::ToPreview = match self.space {
            Space::Hvsct => c::rulantip_hvsct,
            Space::Ycocg => c::rulantip_ycocg,
        };
        let [r, g, b] = self.samples;
        // SAFETY: the function is given numbers alone.
        let answer = unsafe { call(self.depth, r, g, b) };
        let floats = [answer.v1, answer.v2, answer.v3];
        let expected = reference::preview(self.space, self.depth, self.samples);
        let (refusal, space, right) = match expected {
            Ok(numbers) => (0, self.space.number(), floats.map(quarters) == numbers.map(Some)),
            Err(refusal) => (refusal, 0, floats.map(f64::to_bits) == [0; 3]),
        };
        assert!(
            (answer.refusal, answer.space) == (refusal, space) && right,
            "the answer is {answer:?}, expected {expected:?} in quarters\n{self}"
        );
        expected.map(|_| floats)
    }

    /// The floats, once the pixel has come back from them.
    pub fn there_and_back(&self) -> [f64; 3] {
        let floats = self.call().unwrap();
        assert_eq!(self.back_from(floats), Ok(self.samples), "{self}");
        floats
    }

    /// What other floats go back to, in the same space and at the same depth.
    pub fn back_from(&self, floats: [f64; 3]) -> Result<[i32; 3], RefusalNumber> {
        let Pixel { space, depth, origin, .. } = self.clone();
        Viewed { space: space.number(), depth, floats, origin }.call()
    }
}

/// Everything that the way back is given.
#[derive(Clone)]
pub struct Viewed {
    pub depth: u32,
    pub space: u32,
    pub floats: [f64; 3],
    /// How to make the case again.
    pub origin: String,
}

impl fmt::Display for Viewed {
    fn fmt(&self, f: &mut fmt::Formatter<'_>) -> fmt::Result {
        writeln!(f, "{}\nspace {} depth {} floats {:?}", self.origin, self.space, self.depth, self.floats)
    }
}

impl Viewed {
    /// R, G and B, or why the call refuses.
    pub fn call(&self) -> Result<[i32; 3], RefusalNumber> {
        let [v1, v2, v3] = self.floats;
        // SAFETY: the function is given numbers alone.
        let answer = unsafe { c::rulantip_preview_back(self.depth, self.space, v1, v2, v3) };
        let expected = reference::preview_back(self.depth, self.space, self.floats);
        let right = match expected {
            Ok([r, g, b]) => RulantipRgb { refusal: 0, r, g, b },
            Err(refusal) => RulantipRgb { refusal, r: 0, g: 0, b: 0 },
        };
        assert_eq!(answer, right, "{self}");
        expected
    }
}

/// A pixel that the failure shows in full.
pub fn pixel(space: Space, depth: u32, samples: [i32; 3]) -> Pixel {
    Pixel { space, depth, samples, origin: String::new() }
}

/// The greatest sample, M.
pub fn highest(depth: u32) -> i32 {
    greatest([depth; 3])[0] as i32
}

/// A pixel of the depth; some samples are equal, 0 or M.
pub fn any_pixel(random: &mut Random, space: Space, depth: u32, origin: &str) -> Pixel {
    let highest = highest(depth);
    let grey = random.between(0, highest.into()) as i32;
    let samples = [(); 3].map(|()| match random.below(6) {
        0 => grey,
        1 => 0,
        2 => highest,
        _ => random.between(0, highest.into()) as i32,
    });
    Pixel { space, depth, samples, origin: origin.to_string() }
}

/// Every space with every depth.
pub fn all_spaces() -> impl Iterator<Item = (Space, u32)> {
    SPACES.into_iter().flat_map(|space| (2..=16).map(move |depth| (space, depth)))
}

/// Every pixel of the depth.
fn all_pixels(space: Space, depth: u32) -> impl Iterator<Item = Pixel> {
    let sample = move |code: i32, plane: u32| code >> (plane * depth) & highest(depth);
    (0..1 << (3 * depth)).map(move |code| pixel(space, depth, [2, 1, 0].map(|plane| sample(code, plane))))
}

#[test]
fn every_small_pixel() {
    for (space, depth) in SPACES.into_iter().flat_map(|space| [2, 3, 4].map(|depth| (space, depth))) {
        for pixel in all_pixels(space, depth) {
            pixel.there_and_back();
        }
    }
}

/// The floats of every pixel, in `parts` of one, and the pixel.
fn searched(space: Space, depth: u32, parts: i64) -> HashMap<[i64; 3], [i32; 3]> {
    let part = |float: f64| (float * parts as f64) as i64;
    all_pixels(space, depth).map(|pixel| (pixel.call().unwrap().map(part), pixel.samples)).collect()
}

/// Every three floats around those of all pixels, in `parts` of one: what some pixel has goes back to it, all else is
/// refused.
fn every_point(space: Space, depth: u32, parts: i64) {
    let found = searched(space, depth, parts);
    let (most, beyond) = (parts * i64::from(highest(depth)), parts + 1);
    let chroma = -most / 2 - beyond..=most / 2 + beyond;
    let mut accepted = 0;
    for v1 in -beyond..=most + beyond {
        for (v2, v3) in chroma.clone().flat_map(|v2| chroma.clone().map(move |v3| (v2, v3))) {
            let floats = [v1, v2, v3].map(|part| part as f64 / parts as f64);
            let expected = found.get(&[v1, v2, v3]).copied().ok_or(15);
            let viewed = Viewed { depth, space: space.number(), floats, origin: String::new() };
            assert_eq!(viewed.call(), expected, "{viewed}");
            accepted += usize::from(expected.is_ok());
        }
    }
    assert_eq!(accepted, 1 << (3 * depth), "every pixel lies within the box, and no two have the same floats");
}

#[test]
fn every_point_around_small_pixels() {
    for space in SPACES {
        for (depth, parts) in [(2, 8), (3, 4), (4, 4)] {
            every_point(space, depth, parts);
        }
    }
}

#[test]
fn random_pixels() {
    each_round("random_pixels", 2000, |random, origin| {
        for (space, depth) in all_spaces() {
            any_pixel(random, space, depth, origin).there_and_back();
        }
    });
}

/// One pixel in both spaces, with values that were calculated by hand.
fn by_hand(depth: u32, samples: [i32; 3], values: [[f64; 3]; 2]) {
    for (space, floats) in SPACES.into_iter().zip(values) {
        let pixel = pixel(space, depth, samples);
        assert_eq!(pixel.there_and_back(), floats, "{pixel}");
        assert_eq!(pixel.back_from(floats), Ok(samples), "{pixel}");
    }
}

/// Black, white, red, green and blue; M, its half and its quarter by hand.
#[test]
fn corners() {
    for (depth, m, half, quarter) in [(2, 3, 1.5, 0.75), (8, 255, 127.5, 63.75), (16, 65_535, 32_767.5, 16_383.75)] {
        by_hand(depth, [0, 0, 0], [[0.0; 3]; 2]);
        by_hand(depth, [m, m, m], [[2.0 * half, 0.0, 0.0]; 2]);
        by_hand(depth, [m, 0, 0], [[half, half, -quarter], [quarter, half, -quarter]]);
        by_hand(depth, [0, m, 0], [[half, -half, -quarter], [half, 0.0, half]]);
        by_hand(depth, [0, 0, m], [[0.0, 0.0, half], [quarter, -half, -quarter]]);
    }
}

/// The first paper's pixel. At depth 2 it is none.
#[test]
fn papers_pixel() {
    let values = [[105.0, -95.0, -22.5], [117.5, -25.0, 82.5]];
    by_hand(8, [10, 200, 60], values);
    by_hand(16, [10, 200, 60], values);
    for (space, floats) in SPACES.into_iter().zip(values) {
        let pixel = pixel(space, 2, [10, 200, 60]);
        assert_eq!((pixel.call(), pixel.back_from(floats)), (Err(11), Err(15)));
    }
}

/// The floats with a negative zero in place of every zero that the set has a bit for.
fn with_negative_zeros(floats: [f64; 3], set: usize) -> [f64; 3] {
    [0, 1, 2].map(|at| if floats[at] == 0.0 && set >> at & 1 == 1 { -0.0 } else { floats[at] })
}

/// Black has three zeros, every other grey two, and the others here have one or two in some space.
#[test]
fn both_zeros() {
    for (space, depth) in all_spaces() {
        let m = highest(depth);
        for samples in [[0; 3], [1; 3], [m; 3], [0, 0, m], [m, m, 0], [m, 0, m], [0, m, 0], [1, 3, 2], [1, 2, 3]] {
            let pixel = pixel(space, depth, samples);
            let floats = pixel.there_and_back().map(|float| if float == 0.0 { 0.0 } else { float });
            for set in 0..8 {
                assert_eq!(pixel.back_from(with_negative_zeros(floats, set)), Ok(samples), "{pixel}");
            }
        }
    }
}

/// Handed in as the other space's, a pixel's floats are another pixel's or none's. 100, 60, 84 has 80, 20, 2 in HVSCT,
/// which 98, 82, 58 has in YCoCg; the R that the paper's pixel would go to is 32.5 or 92.5.
#[test]
fn the_other_space() {
    let across = |space, samples| {
        let other = if space == Space::Hvsct { Space::Ycocg } else { Space::Hvsct };
        pixel(other, 8, samples).back_from(pixel(space, 8, samples).there_and_back())
    };
    assert_eq!(across(Space::Hvsct, [100, 60, 84]), Ok([98, 82, 58]));
    assert_eq!(across(Space::Ycocg, [98, 82, 58]), Ok([100, 60, 84]));
    assert_eq!(SPACES.map(|space| across(space, [10, 200, 60])), [Err(15); 2]);
    assert_eq!(SPACES.map(|space| across(space, [77; 3])), [Ok([77; 3]); 2]);
    each_round("the_other_space", 2000, |random, origin| {
        for (space, depth) in all_spaces() {
            let pixel = any_pixel(random, space, depth, origin);
            let floats = pixel.call().unwrap();
            for space in SPACES {
                let _ = Pixel { space, ..pixel.clone() }.back_from(floats);
            }
        }
    });
}
