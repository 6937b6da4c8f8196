//! Whole numbers above 0 without limit.

use std::cmp::Ordering;

/// A number in base 2^32, the least digit first and the last digit above 0.
#[derive(Clone, Debug, PartialEq, Eq)]
pub struct Natural(Vec<u32>);

impl Natural {
    pub fn new(number: u32) -> Natural {
        assert!(number > 0);
        Natural(vec![number])
    }

    pub fn times(&self, other: &Natural) -> Natural {
        let (Natural(a), Natural(b)) = (self, other);
        let mut out = vec![0u32; a.len() + b.len()];
        for (i, &x) in a.iter().enumerate() {
            let mut carry = 0u64;
            for (j, &y) in b.iter().enumerate() {
                let digit = u64::from(out[i + j]) + u64::from(x) * u64::from(y) + carry;
                out[i + j] = digit as u32;
                carry = digit >> 32;
            }
            out[i + b.len()] = carry as u32;
        }
        if out[out.len() - 1] == 0 {
            out.pop();
        }
        Natural(out)
    }

    pub fn power(&self, exponent: u32) -> Natural {
        if exponent == 0 {
            return Natural::new(1);
        }
        let half = self.power(exponent / 2);
        let even = half.times(&half);
        if exponent % 2 == 1 {
            even.times(self)
        } else {
            even
        }
    }

    /// The greatest whole number p with 2^p not above the number.
    pub fn logarithm(&self) -> u32 {
        let top = self.0.len() - 1;
        32 * top as u32 + self.0[top].ilog2()
    }
}

impl Ord for Natural {
    fn cmp(&self, other: &Natural) -> Ordering {
        let (Natural(a), Natural(b)) = (self, other);
        a.len().cmp(&b.len()).then_with(|| a.iter().rev().cmp(b.iter().rev()))
    }
}

impl PartialOrd for Natural {
    fn partial_cmp(&self, other: &Natural) -> Option<Ordering> {
        Some(self.cmp(other))
    }
}

#[cfg(test)]
mod tests {
    use super::*;

    /// Powers below 2^128, against numbers of 128 bits.
    #[test]
    fn powers() {
        let bases = [1u32, 2, 3, 255, 65_535, 65_536, 65_537, u32::MAX];
        let powers = bases.into_iter().flat_map(|base| {
            (0..=12).filter_map(move |e| Some((Natural::new(base).power(e), u128::from(base).checked_pow(e)?)))
        });
        let powers: Vec<(Natural, u128)> = powers.collect();
        for (one, number) in &powers {
            assert_eq!(one.logarithm(), number.ilog2());
            for (other, other_number) in &powers {
                assert_eq!(one.cmp(other), number.cmp(other_number), "{number} and {other_number}");
            }
        }
    }
}
