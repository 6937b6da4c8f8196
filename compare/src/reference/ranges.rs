//! The ranges of finished planes, step by step from the depths.

use super::TRANSFORMS;
use std::ops::{Add, Sub};

/// The whole numbers from `low` to `high`.
#[derive(Clone, Copy, Debug, PartialEq, Eq)]
pub struct Interval {
    pub low: i64,
    pub high: i64,
}

impl Interval {
    pub fn contains(self, number: i64) -> bool {
        self.low <= number && number <= self.high
    }

    /// Highest less lowest.
    pub fn width(self) -> i64 {
        self.high - self.low
    }

    /// Every number divided, rounded down.
    fn over(self, divisor: i64) -> Interval {
        Interval { low: self.low.div_euclid(divisor), high: self.high.div_euclid(divisor) }
    }

    /// The least interval that takes in both.
    fn hull(self, other: Interval) -> Interval {
        Interval { low: self.low.min(other.low), high: self.high.max(other.high) }
    }
}

impl Add for Interval {
    type Output = Interval;

    fn add(self, other: Interval) -> Interval {
        Interval { low: self.low + other.low, high: self.high + other.high }
    }
}

impl Sub for Interval {
    type Output = Interval;

    fn sub(self, other: Interval) -> Interval {
        Interval { low: self.low - other.high, high: self.high - other.low }
    }
}

/// Whether a picture may have this width or height.
pub fn is_side(side: u32) -> bool {
    (1..=8192).contains(&side)
}

/// Every three depths that planes may have.
pub fn all_depths() -> impl Iterator<Item = [u32; 3]> {
    (0..15 * 15 * 15).map(|code| [2 + code / 225, 2 + code / 15 % 15, 2 + code % 15])
}

/// Whether every depth is one that a plane may have.
pub fn are_depths(depths: [u32; 3]) -> bool {
    depths.iter().all(|depth| (2..=16).contains(depth))
}

/// The greatest sample of each plane, M.
pub fn greatest(depths: [u32; 3]) -> [i64; 3] {
    depths.map(|depth| (1 << depth) - 1)
}

/// Lowest and highest number of each finished plane. Filters keep a plane's range, so a filtered value has the range of
/// its plane. "A negating step's range also takes in what its plane had before, because it may be skipped."
pub fn ranges(depths: [u32; 3], transform: u32) -> [Interval; 3] {
    let [mut c1, mut c2, mut c3] = greatest(depths).map(|high| Interval { low: 0, high });
    match transform {
        0 => {
            c1 = c1 - c2;
            c3 = c3 - c2;
            c2 = c2 + (c1 + c3).over(4);
        }
        1 => {
            c1 = c1 - c3;
            c3 = c3 + c1.over(2);
            c2 = c2 - c3;
            c3 = c3 + c2.over(2);
        }
        2 => {
            c3 = c3.hull(c2 - c3);
            c2 = c2.hull(c1 - c2);
        }
        3 => {
            c2 = c2.hull(c1 - c2);
            c1 = c1 - c2.over(2);
            c3 = c3 - c1;
        }
        _ => panic!("no transform {transform}"),
    }
    [c1, c2, c3]
}

/// How many counters the estimate and the search need: 2 × D + 1, D being the widest range; 0 where a depth or the
/// transform is refused.
pub fn counters(depths: [u32; 3], transform: u32) -> usize {
    if !are_depths(depths) || transform >= TRANSFORMS {
        return 0;
    }
    let widest = ranges(depths, transform).map(Interval::width).into_iter().max().unwrap();
    2 * widest as usize + 1
}
