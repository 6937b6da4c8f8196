//! Preview pixels in the two lossy spaces of source document 001, each float as a whole number of quarters.

use super::{are_depths, greatest, RefusalNumber};

/// The spaces: HVSCT with Y, Cd, Ce and YCoCg with Y, Co, Cg.
#[derive(Clone, Copy, Debug, PartialEq, Eq)]
pub enum Space {
    Hvsct = 1,
    Ycocg = 2,
}

pub const SPACES: [Space; 2] = [Space::Hvsct, Space::Ycocg];

impl Space {
    pub fn number(self) -> u32 {
        self as u32
    }

    /// The matrix of equation 5 or 3, its entries in quarters: a row for each float, columns R, G, B.
    fn matrix(self) -> [[i64; 3]; 3] {
        match self {
            Space::Hvsct => [[2, 2, 0], [2, -2, 0], [-1, -1, 2]],
            Space::Ycocg => [[1, 2, 1], [2, 0, -2], [-1, 2, -1]],
        }
    }

    /// Four times the matrix values of R, G, B.
    pub fn quarters(self, [r, g, b]: [i64; 3]) -> [i64; 3] {
        self.matrix().map(|[of_r, of_g, of_b]| of_r * r + of_g * g + of_b * b)
    }

    /// The whole numbers R, G, B with these quarters, by Cramer's rule. Where one of them is not whole there are none.
    fn solved(self, quarters: [i64; 3]) -> Option<[i128; 3]> {
        let matrix = self.matrix().map(|row| row.map(i128::from));
        let divisor = determinant(matrix);
        let sample = |column: usize| {
            let mut replaced = matrix;
            replaced.iter_mut().zip(quarters).for_each(|(row, number)| row[column] = number.into());
            let dividend = determinant(replaced);
            (dividend % divisor == 0).then_some(dividend / divisor)
        };
        Some([sample(0)?, sample(1)?, sample(2)?])
    }
}

fn determinant([[a, b, c], [d, e, f], [g, h, i]]: [[i128; 3]; 3]) -> i128 {
    a * (e * i - f * h) - b * (d * i - f * g) + c * (d * h - e * g)
}

/// Four times the float, read off its bits; none where that is not whole or 2^63 or more in size.
pub fn quarters(float: f64) -> Option<i64> {
    let bits = float.to_bits();
    let (exponent, fraction) = ((bits >> 52 & 2047) as i64, (bits & ((1 << 52) - 1)) as i64);
    // The float's size is digits × 2^(power - 2).
    let (mut digits, mut power) = match exponent {
        2047 => return None,
        0 => (fraction, 1 - 1073),
        _ => ((1 << 52) + fraction, exponent - 1073),
    };
    while power < 0 {
        if digits % 2 != 0 {
            return None;
        }
        (digits, power) = (digits / 2, power + 1);
    }
    while power > 0 {
        (digits, power) = (digits.checked_mul(2)?, power - 1);
    }
    Some(if bits >> 63 == 1 { -digits } else { digits })
}

/// Refusal 5, or M.
fn greatest_at(depth: u32) -> Result<i64, RefusalNumber> {
    if are_depths([depth; 3]) {
        Ok(greatest([depth; 3])[0])
    } else {
        Err(5)
    }
}

/// The pixel's floats in quarters. Refusals 5, 11.
pub fn preview(space: Space, depth: u32, samples: [i32; 3]) -> Result<[i64; 3], RefusalNumber> {
    let greatest = greatest_at(depth)?;
    let samples = samples.map(i64::from);
    if samples.iter().any(|sample| !(0..=greatest).contains(sample)) {
        return Err(11);
    }
    Ok(space.quarters(samples))
}

/// R, G, B of the one pixel that has the floats in the space of that number. Refusals 5, 15.
pub fn preview_back(depth: u32, space: u32, floats: [f64; 3]) -> Result<[i32; 3], RefusalNumber> {
    let greatest = greatest_at(depth)?;
    let space = SPACES.into_iter().find(|one| one.number() == space).ok_or(15u32)?;
    let [Some(v1), Some(v2), Some(v3)] = floats.map(quarters) else { return Err(15) };
    let samples = space.solved([v1, v2, v3]).ok_or(15u32)?;
    if samples.iter().any(|sample| !(0..=greatest.into()).contains(sample)) {
        return Err(15);
    }
    Ok(samples.map(|sample| sample as i32))
}
