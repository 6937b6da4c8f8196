//! The 13 filters.

/// S, the weighted sum of the window around column `x`, row `y`, and W, the sum of the weights present there, for
/// filters 1 to 11.
pub fn window(plane: &[i64], width: usize, height: usize, filter: u8, x: usize, y: usize) -> (i64, i64) {
    let centre_weight = 1i64 << (filter - 1);
    let mut sum = 0;
    let mut weights = 0;
    for row in y.saturating_sub(1)..=(y + 1).min(height - 1) {
        for column in x.saturating_sub(1)..=(x + 1).min(width - 1) {
            let weight = if (column, row) == (x, y) { centre_weight } else { 1 };
            sum += weight * plane[row * width + column];
            weights += weight;
        }
    }
    (sum, weights)
}

/// The filtered value at column `x`, row `y`.
pub fn filtered_at(plane: &[i64], width: usize, height: usize, filter: u8, x: usize, y: usize) -> i64 {
    match filter {
        0 => plane[y * width + x],
        1..=11 => {
            let (sum, weights) = window(plane, width, height, filter, x, y);
            (2 * sum + weights).div_euclid(2 * weights)
        }
        12 => 0,
        _ => panic!("no filter {filter}"),
    }
}
