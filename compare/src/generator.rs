//! Pictures by number, easy to make again in any language.
//!
//! A 32-bit linear congruential generator starts at the seed. For every sample
//! x ← (x × 1664525 + 1013904223) mod 2^32, and the sample is (x / 65536) mod (M + 1), M being its
//! plane's. Samples come in the order plane 1 row by row, then plane 2, then plane 3.

/// The generator: its present x.
pub struct Congruential(pub u32);

impl Congruential {
    /// The next number, 0 to 65,535.
    pub fn next(&mut self) -> u32 {
        self.0 = self.0.wrapping_mul(1_664_525).wrapping_add(1_013_904_223);
        self.0 / 65_536
    }
}

/// The three planes of the picture that `seed` gives.
pub fn picture(width: u32, height: u32, depths: [u32; 3], seed: u32) -> [Vec<i32>; 3] {
    let samples = width as usize * height as usize;
    let mut numbers = Congruential(seed);
    depths.map(|depth| (0..samples).map(|_| (numbers.next() % (1 << depth)) as i32).collect())
}

/// The P6 file of a picture whose planes have one depth, with the plainest header.
pub fn pixmap(width: u32, height: u32, depth: u32, planes: &[Vec<i32>; 3]) -> Vec<u8> {
    let mut file = format!("P6\n{width} {height}\n{}\n", (1u32 << depth) - 1).into_bytes();
    for i in 0..planes[0].len() {
        for plane in planes {
            if depth <= 8 {
                file.push(u8::try_from(plane[i]).expect("a sample of one byte"));
            } else {
                file.extend(u16::try_from(plane[i]).expect("a sample of two bytes").to_be_bytes());
            }
        }
    }
    file
}

#[cfg(test)]
mod tests {
    use super::*;

    #[test]
    fn first_numbers() {
        // 1013904223 = 15470 * 65536 + 62303; 15470 mod 256 = 110. Then 18256 and 53708.
        assert_eq!(picture(1, 1, [8; 3], 0), [[110], [80], [204]]);
        assert_eq!(picture(1, 1, [2, 16, 3], 0), [[2], [18256], [4]]);
        assert_eq!(pixmap(2, 1, 2, &[vec![0, 1], vec![2, 3], vec![1, 0]]), b"P6\n2 1\n3\n\x00\x02\x01\x01\x03\x00");
        assert_eq!(pixmap(1, 1, 9, &[vec![511], vec![2], vec![256]]), b"P6\n1 1\n511\n\x01\xff\x00\x02\x01\x00");
    }
}
