//! The rounds on four vectors of four lanes, one vector for each row of the matrix.

use super::side_by_side::quarter_round;
use crate::simd::U32x4;

pub(crate) type Rows = [U32x4; 4];

#[inline(always)]
pub(crate) fn mix<const ROUNDS: u8>(rows: Rows) -> Rows {
    let mut mixed = rows;
    for _pair in 0..ROUNDS / 2 {
        mixed = mix_diagonals(mix_columns(mixed));
    }
    mixed
}

// A lane is a column, so this mixes all four columns at once.
#[inline(always)]
fn mix_columns(rows: Rows) -> Rows {
    let [a, b, c, d] = rows;
    let (a, b, c, d) = quarter_round(a, b, c, d);
    [a, b, c, d]
}

// Rotates row r by r lanes, which turns each diagonal into a column, and rotates it back after the
// mixing.
#[inline(always)]
fn mix_diagonals(rows: Rows) -> Rows {
    let [a, b, c, d] = rows;
    let [a, b, c, d] = mix_columns([a, from_lane(1, b), from_lane(2, c), from_lane(3, d)]);
    let b = from_lane(3, b);
    let c = from_lane(2, c);
    let d = from_lane(1, d);
    [a, b, c, d]
}

// Returns the row rotated so that lane `n` comes first.
#[inline(always)]
fn from_lane(n: usize, row: U32x4) -> U32x4 {
    let lanes = row.to_array();
    U32x4::from_array([
        lanes[n],
        lanes[(n + 1) % 4],
        lanes[(n + 2) % 4],
        lanes[(n + 3) % 4],
    ])
}

#[inline(always)]
pub(crate) fn rows_of(x: &[u32; 16]) -> Rows {
    [
        U32x4::from_array([x[0], x[1], x[2], x[3]]),
        U32x4::from_array([x[4], x[5], x[6], x[7]]),
        U32x4::from_array([x[8], x[9], x[10], x[11]]),
        U32x4::from_array([x[12], x[13], x[14], x[15]]),
    ]
}

#[inline(always)]
pub(crate) fn matrix_of(rows: Rows) -> [u32; 16] {
    let [a, b, c, d] = rows;
    let [a0, a1, a2, a3] = a.to_array();
    let [b0, b1, b2, b3] = b.to_array();
    let [c0, c1, c2, c3] = c.to_array();
    let [d0, d1, d2, d3] = d.to_array();
    [
        a0, a1, a2, a3, b0, b1, b2, b3, c0, c1, c2, c3, d0, d1, d2, d3,
    ]
}
