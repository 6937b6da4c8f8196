//! The entropy estimate of a plane: MED residuals, counted and weighed by a table of logarithms.

use super::Natural;
use std::collections::BTreeMap;
use std::sync::OnceLock;

/// MED's prediction from left `a`, above `e` and above-left `c`.
pub fn med(a: i64, e: i64, c: i64) -> i64 {
    if c >= a && c >= e {
        a.min(e)
    } else if c <= a && c <= e {
        a.max(e)
    } else {
        a + e - c
    }
}

/// The sample at `index` less its prediction.
pub fn residual(plane: &[i64], width: usize, index: usize) -> i64 {
    let (x, y) = (index % width, index / width);
    let prediction = match (x, y) {
        (0, 0) => 0,
        (_, 0) => plane[index - 1],
        (0, _) => plane[index - width],
        _ => med(plane[index - 1], plane[index - width], plane[index - width - 1]),
    };
    plane[index] - prediction
}

/// The indices that are counted in a plane of `samples` samples.
pub fn counted_indices(samples: usize) -> impl Iterator<Item = usize> {
    let counted = samples.min(4096);
    (0..counted).map(move |i| (i as u64 * samples as u64 / counted as u64) as usize)
}

/// The greatest whole number p with 2^p not above n^64, from n^64 itself.
fn exact_logarithm(n: u32) -> u32 {
    Natural::new(n).power(64).logarithm()
}

/// L(n) for n from 1 to 4,096.
pub fn logarithm(n: usize) -> u32 {
    static TABLE: OnceLock<Vec<u32>> = OnceLock::new();
    TABLE.get_or_init(|| (1..=4096).map(exact_logarithm).collect())[n - 1]
}

/// How often each residual occurs among the counted samples, of those that occur; together N times.
pub fn counts(plane: &[i64], width: usize) -> Vec<u32> {
    let mut occurrences: BTreeMap<i64, u32> = BTreeMap::new();
    for index in counted_indices(plane.len()) {
        *occurrences.entry(residual(plane, width, index)).or_default() += 1;
    }
    occurrences.into_values().collect()
}

/// The estimate of a plane in sixty-fourths of a bit, and how many samples were counted.
pub fn plane_estimate(plane: &[i64], width: usize) -> (u32, u32) {
    let counts = counts(plane, width);
    let counted = counts.iter().sum();
    let weighed = |count: u32| count * logarithm(count as usize);
    let less: u32 = counts.iter().map(|&count| weighed(count)).sum();
    (weighed(counted) - less, counted)
}
