//! Random cases, each from a seed that repeats it.

use crate::same::Case;
use compare::reference::{counters, greatest, places, Settings, TRANSFORMS};
use std::env;

/// Numbers by SplitMix64.
pub struct Random(u64);

impl Random {
    pub fn new(seed: u64) -> Random {
        Random(seed)
    }

    pub fn number(&mut self) -> u64 {
        self.0 = self.0.wrapping_add(0x9e37_79b9_7f4a_7c15);
        let mut z = self.0;
        z = (z ^ (z >> 30)).wrapping_mul(0xbf58_476d_1ce4_e5b9);
        z = (z ^ (z >> 27)).wrapping_mul(0x94d0_49bb_1331_11eb);
        z ^ (z >> 31)
    }

    /// A number from 0 to `limit` - 1.
    pub fn below(&mut self, limit: usize) -> usize {
        (self.number() % limit as u64) as usize
    }

    /// A number from `low` to `high`, both included.
    pub fn between(&mut self, low: i64, high: i64) -> i64 {
        low + (self.number() % (high - low + 1) as u64) as i64
    }

    pub fn one_in(&mut self, chances: usize) -> bool {
        self.below(chances) == 0
    }

    pub fn one_of<T: Copy>(&mut self, values: &[T]) -> T {
        values[self.below(values.len())]
    }
}

fn setting(name: &str) -> Option<u64> {
    let text = env::var(name).ok()?;
    Some(text.parse().unwrap_or_else(|_| panic!("{name} is no number: {text}")))
}

/// Calls `round` with a seed and its origin, as often as set, else `rounds` times.
pub fn each_round(test: &str, rounds: u64, mut round: impl FnMut(&mut Random, &str)) {
    let first = setting("RULANTIP_SEED").unwrap_or(1);
    for seed in first..first + setting("RULANTIP_ROUNDS").unwrap_or(rounds) {
        let origin = format!("repeat by: RULANTIP_SEED={seed} RULANTIP_ROUNDS=1 cargo test --release {test}");
        round(&mut Random::new(seed), &origin);
    }
}

/// A side of a picture: mostly short, at times some dozens.
fn side(random: &mut Random) -> u32 {
    let limit = random.one_of(&[1, 2, 3, 4, 6, 10, 20, 48]);
    1 + random.below(limit) as u32
}

/// Depths from 2 to `most`: often equal; else of any kind, or the ends of the range beside each other.
pub fn depths_to(random: &mut Random, most: u32) -> [u32; 3] {
    let equal = random.between(2, most.into()) as u32;
    match random.below(6) {
        0..=2 => [equal; 3],
        3 => [(); 3].map(|()| random.one_of(&[2, most])),
        _ => [(); 3].map(|()| random.between(2, most.into()) as u32),
    }
}

/// Depths of any kind, with those of textures and of common pictures among them.
pub fn depths(random: &mut Random) -> [u32; 3] {
    match random.below(8) {
        0 => random.one_of(&[[5, 6, 5], [8; 3], [16; 3]]),
        _ => depths_to(random, 16),
    }
}

/// Every depth for all planes, and as many depths of any kind.
pub fn many_depths(random: &mut Random) -> Vec<[u32; 3]> {
    (2..=16).flat_map(|depth| [[depth; 3], depths(random)]).collect()
}

pub fn settings(random: &mut Random) -> Settings {
    let (width, height) = (side(random), side(random));
    let depths = depths(random);
    Settings { width, height, depths, transform: random.below(TRANSFORMS as usize) as u32 }
}

/// Choices: all of any kind, one filter everywhere, or one place alone.
pub fn choices(random: &mut Random, places: usize) -> Vec<u8> {
    let filter = random.below(13) as u8;
    let mut choices: Vec<u8> = match random.below(4) {
        0 => vec![filter; places],
        1 => vec![0; places],
        _ => (0..places).map(|_| random.below(13) as u8).collect(),
    };
    if random.one_in(2) {
        choices[random.below(places)] = filter;
    }
    choices
}

/// A picture's samples: noise, extremes, stripes, slopes, nearly flat, with planes alike or not.
pub fn picture(random: &mut Random, settings: Settings) -> [Vec<i32>; 3] {
    let (width, height) = (settings.width as i64, settings.height as i64);
    let [highest, ..] = greatest(settings.depths);
    let alike = random.one_in(3);
    let first = plane(random, width, height, highest);
    greatest(settings.depths).map(|greatest| {
        if !alike {
            return plane(random, width, height, greatest);
        }
        let noise = random.one_of(&[0, 1, 3]);
        let scaled = |sample: i32| i64::from(sample) * (greatest + 1) / (highest + 1);
        first.iter().map(|&sample| (scaled(sample) + random.between(0, noise)).min(greatest) as i32).collect()
    })
}

fn plane(random: &mut Random, width: i64, height: i64, greatest: i64) -> Vec<i32> {
    let kind = random.below(9);
    let level = random.between(0, greatest);
    let slope = random.between(1, 4);
    let spread = random.one_of(&[1, 2, 3, 8]);
    let mut samples = Vec::new();
    for y in 0..height {
        for x in 0..width {
            let sample = match kind {
                0 => 0,
                1 => greatest,
                2 => (x + y) % 2 * greatest,
                3 => random.between(0, 1) * greatest,
                4 => level,
                5 => level / 2 + slope * (x + 2 * y),
                6 => level + random.between(-spread, spread),
                _ => random.between(0, greatest),
            };
            samples.push(sample.clamp(0, greatest) as i32);
        }
    }
    samples
}

/// A case with no fault in it. Scratch holds noise and is exactly enough or longer.
pub fn case(random: &mut Random, origin: &str) -> Case {
    let settings = settings(random);
    case_of(random, settings, origin)
}

pub fn case_of(random: &mut Random, settings: Settings, origin: &str) -> Case {
    let case = case_without_scratch(random, settings, origin);
    let mut longer = |needed: usize| needed + if random.one_in(2) { 0 } else { random.below(20) };
    let samples = case.samples();
    let lengths = [longer(samples), longer(samples), longer(samples)];
    let counters = longer(counters(settings.depths, settings.transform));
    Case {
        rounds: 1 + random.below(4) as u32,
        trial: lengths.map(|length| (0..length).map(|_| random.number() as i32).collect()),
        counters: (0..counters).map(|_| random.number() as u32).collect(),
        ..case
    }
}

/// A case for the calls that are lent planes and choices alone.
pub fn case_without_scratch(random: &mut Random, settings: Settings, origin: &str) -> Case {
    Case {
        settings,
        band_height: None,
        rounds: 0,
        choices: choices(random, places(settings.transform)),
        planes: picture(random, settings),
        trial: Default::default(),
        counters: Vec::new(),
        alignment: random.below(1000),
        origin: origin.to_string(),
    }
}

/// The case with bands: short ones, of any height, or one or two for the whole picture.
pub fn banded(random: &mut Random, case: &Case) -> Case {
    let height = case.settings.height;
    let any = 1 + random.below(height as usize) as u32;
    let rows = random.one_of(&[1, 2, 3, any, any, height.div_ceil(2), height]);
    banded_by(random, case, rows.min(height))
}

/// The case with bands of so many rows, and a set of choices for each: null at all places or at some, the set of the
/// band above, or of any kind.
pub fn banded_by(random: &mut Random, case: &Case, rows: u32) -> Case {
    let places = places(case.settings.transform);
    let mut sets: Vec<Vec<u8>> = Vec::new();
    for _ in (0..case.settings.height).step_by(rows as usize) {
        let above = sets.last().cloned();
        let set = match random.below(6) {
            0 => vec![12; places],
            1 | 2 => (0..places).map(|_| if random.one_in(2) { 12 } else { random.below(12) as u8 }).collect(),
            3 => above.unwrap_or_else(|| choices(random, places)),
            _ => choices(random, places),
        };
        sets.push(set);
    }
    case.with_bands(rows, sets.concat())
}

/// A case with bands and no fault in it, for the calls that are lent planes and choices alone.
pub fn banded_case(random: &mut Random, origin: &str) -> Case {
    let settings = settings(random);
    let case = case_without_scratch(random, settings, origin);
    banded(random, &case)
}

/// A random sample of a case's planes.
pub fn sample<'a>(random: &mut Random, case: &'a mut Case) -> &'a mut i32 {
    let plane = &mut case.planes[random.below(3)];
    let index = random.below(plane.len());
    &mut plane[index]
}
