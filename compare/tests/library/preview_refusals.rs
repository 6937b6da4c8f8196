//! Floats that no pixel has, and every refusal of the calls on previews: the first in the order of the tests wins.

use crate::faults::{Faults, DEPTHS};
use crate::previews::{all_spaces, any_pixel, highest, pixel, Pixel, Viewed};
use crate::random::{each_round, Random};
use compare::reference::{Space, SPACES};

/// The floats with another one at that place.
fn with(mut floats: [f64; 3], at: usize, float: f64) -> [f64; 3] {
    floats[at] = float;
    floats
}

/// Puts each of the others in the place of each of the pixel's floats: no pixel has them.
fn refused_anywhere(pixel: &Pixel, others: impl Fn(f64) -> Vec<f64>) {
    let floats = pixel.there_and_back();
    for (at, float) in floats.into_iter().enumerate() {
        for other in others(float) {
            assert_eq!(pixel.back_from(with(floats, at, other)), Err(15), "{other} in place of {float}\n{pixel}");
        }
    }
}

/// Every pixel of samples 0 and M, and some of any kind.
fn some_pixels(random: &mut Random, space: Space, depth: u32, origin: &str) -> Vec<Pixel> {
    let corner = |code: i32| pixel(space, depth, [0, 1, 2].map(|plane| (code >> plane & 1) * highest(depth)));
    let any = (0..20).map(|_| any_pixel(random, space, depth, origin));
    (0..8).map(corner).chain(any.collect::<Vec<_>>()).collect()
}

/// NaNs, infinities, the largest and the smallest numbers, powers of two at which integers end, and their neighbours.
fn extremes() -> Vec<f64> {
    let powers = [30, 31, 32, 51, 52, 53, 60, 61, 62, 63, 64, 127, 128, 1023].map(|power| 2f64.powi(power));
    let small = [5e-324, 1e-323, f64::MIN_POSITIVE, 2f64.powi(-53), 2f64.powi(-30), 0.125, 0.0625];
    let large = [f64::INFINITY, f64::MAX, 1e308, 1e300, 1e19, 4_294_967_296.5];
    let nans = [f64::NAN, f64::from_bits(0x7ff0_0000_0000_0001), f64::from_bits(0x7fff_ffff_ffff_ffff)];
    let beside = powers.into_iter().chain(small).flat_map(|float| [float.next_up(), float.next_down()]);
    let all: Vec<f64> = powers.into_iter().chain(small).chain(large).chain(nans).chain(beside).collect();
    // The number below the smallest is 0, which a pixel may have.
    all.into_iter().filter(|&float| float != 0.0).flat_map(|float| [float, -float]).collect()
}

#[test]
fn extremes_are_refused() {
    each_round("extremes_are_refused", 1, |random, origin| {
        for (space, depth) in all_spaces() {
            for pixel in some_pixels(random, space, depth, origin) {
                refused_anywhere(&pixel, |_| extremes());
            }
        }
    });
}

/// A float that is a quarter or less off makes a sample a half or less off.
#[test]
fn close_floats_are_refused() {
    let close = |float: f64| {
        let away = [0.25, 0.125, 2f64.powi(-30)].into_iter().flat_map(|far| [float + far, float - far]);
        away.chain([float.next_up(), float.next_down()]).collect()
    };
    each_round("close_floats_are_refused", 4, |random, origin| {
        for (space, depth) in all_spaces() {
            some_pixels(random, space, depth, origin).iter().for_each(|pixel| refused_anywhere(pixel, close));
        }
    });
}

/// Numbers that would be right if they wrapped, to the depth's bits or to more. All are exact.
#[test]
fn floats_that_would_wrap_are_refused() {
    each_round("floats_that_would_wrap_are_refused", 1, |random, origin| {
        for (space, depth) in all_spaces() {
            let powers = || (depth as i32..=48).map(|power| 2f64.powi(power));
            let wrapping = |float: f64| powers().flat_map(|power| [float + power, float - power]).collect();
            some_pixels(random, space, depth, origin).iter().for_each(|pixel| refused_anywhere(pixel, wrapping));
        }
    });
}

/// Half more of Ce is one more of B; half more of any other float is half more of R.
#[test]
fn halves() {
    let half_more = |space, at: usize| {
        let pixel = pixel(space, 8, [10, 200, 60]);
        let mut floats = pixel.there_and_back();
        floats[at] += 0.5;
        pixel.back_from(floats)
    };
    assert_eq!([0, 1, 2].map(|at| half_more(Space::Hvsct, at)), [Err(15), Err(15), Ok([10, 200, 61])]);
    assert_eq!([0, 1, 2].map(|at| half_more(Space::Ycocg, at)), [Err(15); 3]);
}

/// A number near the float: its neighbours, some quarters away, negated or as it is.
fn near(random: &mut Random, float: f64) -> f64 {
    let far = random.one_of(&[0.25, 0.5, 0.75, 1.0, 2.0, 2f64.powi(-30)]);
    match random.below(9) {
        0 => float.next_up(),
        1 => float.next_down(),
        2 | 3 => float + far,
        4 | 5 => float - far,
        6 => -float,
        _ => float,
    }
}

#[test]
fn floats_near_those_of_pixels() {
    each_round("floats_near_those_of_pixels", 2000, |random, origin| {
        for (space, depth) in all_spaces() {
            let pixel = any_pixel(random, space, depth, origin);
            let floats = pixel.call().unwrap();
            for _ in 0..8 {
                let _ = pixel.back_from(floats.map(|float| near(random, float)));
            }
        }
    });
}

#[test]
fn random_bits() {
    each_round("random_bits", 2000, |random, origin| {
        for (space, depth) in all_spaces() {
            let pixel = any_pixel(random, space, depth, origin);
            let floats = pixel.call().unwrap();
            let _ = pixel.back_from([(); 3].map(|()| f64::from_bits(random.number())));
            let _ = pixel.back_from(with(floats, random.below(3), f64::from_bits(random.number())));
        }
    });
}

/// Samples a few outside 0 to M: their floats are refused, and those just inside go back.
#[test]
fn pixels_past_the_depth() {
    for (space, depth) in all_spaces() {
        let m = highest(depth);
        let samples = [-2, -1, 0, 1, m / 2, m - 1, m, m + 1, m + 2, 2 * m + 1];
        for code in 0..samples.len().pow(3) {
            let [r, g, b] = [0, 1, 2].map(|plane| samples[code / samples.len().pow(plane) % samples.len()]);
            let floats = space.quarters([r, g, b].map(i64::from)).map(|number| number as f64 / 4.0);
            let expected =
                if [r, g, b].iter().all(|sample| (0..=m).contains(sample)) { Ok([r, g, b]) } else { Err(15) };
            let pixel = pixel(space, depth, [r, g, b]);
            assert_eq!(pixel.back_from(floats), expected, "{pixel}");
            assert_eq!(pixel.call().is_ok(), expected.is_ok(), "{pixel}");
        }
    }
}

/// Only at the deeper depth there is a pixel with the floats.
#[test]
fn pixels_one_bit_deeper() {
    each_round("pixels_one_bit_deeper", 300, |random, origin| {
        for (space, depth) in all_spaces().filter(|&(_, depth)| depth > 2) {
            let mut deep = any_pixel(random, space, depth, origin);
            deep.samples[random.below(3)] = random.between(1 << (depth - 1), (1 << depth) - 1) as i32;
            let floats = deep.there_and_back();
            let shallow = Pixel { depth: depth - 1, ..deep };
            assert_eq!((shallow.call(), shallow.back_from(floats)), (Err(11), Err(15)), "{shallow}");
        }
    });
}

/// The faults of the forward calls: 5, 11.
fn faults_there(depth: u32) -> Faults<Pixel> {
    let mut faults = Faults(Vec::new());
    for refused in DEPTHS {
        faults.add(5, move |case: &mut Pixel| case.depth = refused);
    }
    for sample in [-1, highest(depth) + 1, 2 * highest(depth) + 1, 65_536, i32::MIN, i32::MAX] {
        for plane in 0..3 {
            faults.add(11, move |case| case.samples[plane] = sample);
        }
        faults.add(11, move |case| case.samples = [sample; 3]);
    }
    faults
}

/// The faults of the way back: 5, 15. No other space has a number, and 0 stands beside a refusal.
fn faults_back() -> Faults<Viewed> {
    let mut faults = Faults(Vec::new());
    for refused in DEPTHS {
        faults.add(5, move |case: &mut Viewed| case.depth = refused);
    }
    for space in [0, 3, 4, 7, 15, 256 + 1, 65_536 + 2, 1 << 31, (1 << 31) + 1, u32::MAX] {
        faults.add(15, move |case| case.space = space);
    }
    for float in [f64::NAN, f64::INFINITY, f64::NEG_INFINITY, 0.125, -70_000.0, 1e308] {
        for at in 0..3 {
            faults.add(15, move |case| case.floats[at] = float);
        }
        faults.add(15, move |case| case.floats = [float; 3]);
    }
    faults
}

/// A pixel and the way back from its floats.
fn sound(random: &mut Random, space: Space, depth: u32, origin: &str) -> (Pixel, Viewed) {
    let pixel = any_pixel(random, space, depth, origin);
    let floats = pixel.there_and_back();
    (pixel, Viewed { depth, space: space.number(), floats, origin: origin.to_string() })
}

#[test]
fn one_fault_and_two() {
    each_round("preview_refusals::one_fault_and_two", 1, |random, origin| {
        for (space, depth) in all_spaces() {
            let (pixel, viewed) = sound(random, space, depth, origin);
            faults_there(depth).one_and_two(&pixel, |case| case.call().err().unwrap_or(0));
            faults_back().one_and_two(&viewed, |case| case.call().err().unwrap_or(0));
        }
    });
}

/// Any number of faults at once; the reference says which comes first.
#[test]
fn several_faults() {
    each_round("preview_refusals::several_faults", 500, |random, origin| {
        for (space, depth) in all_spaces() {
            let (mut pixel, mut viewed) = sound(random, space, depth, origin);
            faults_there(depth).make_some(random, &mut pixel);
            faults_back().make_some(random, &mut viewed);
            pixel.call().unwrap_err();
            viewed.call().unwrap_err();
        }
    });
}

/// A refusal handed in as it was answered: 5 or 15, by the depth.
#[test]
fn refusals_handed_in() {
    for space in SPACES {
        for (there, back, refusal) in [(8, 8, 15), (2, 16, 15), (17, 8, 15), (17, 17, 5), (8, 0, 5)] {
            pixel(space, there, [256, 0, 0]).call().unwrap_err();
            let viewed = Viewed { depth: back, space: 0, floats: [0.0; 3], origin: String::new() };
            assert_eq!(viewed.call(), Err(refusal), "{viewed}");
        }
    }
}
