//! The blocks of four consecutive counters, computed at once on vectors of four lanes.

use super::lanes::{matrix_of, Rows};
use super::side_by_side::{blocks_of, Matrices, Row};
use super::state::{counter, high, low};
use crate::simd::U32x4;

pub(crate) type FourBlocks = ([u32; 16], [u32; 16], [u32; 16], [u32; 16]);

// The given state and the three that follow it. The counter may wrap around within the four.
#[inline(always)]
fn four_states(x: &[u32; 16]) -> Matrices<U32x4> {
    let first = counter(x);
    let second = first.wrapping_add(1);
    let third = first.wrapping_add(2);
    let fourth = first.wrapping_add(3);
    (
        (
            U32x4::splat(x[0]),
            U32x4::splat(x[1]),
            U32x4::splat(x[2]),
            U32x4::splat(x[3]),
        ),
        (
            U32x4::splat(x[4]),
            U32x4::splat(x[5]),
            U32x4::splat(x[6]),
            U32x4::splat(x[7]),
        ),
        (
            U32x4::splat(x[8]),
            U32x4::splat(x[9]),
            U32x4::splat(x[10]),
            U32x4::splat(x[11]),
        ),
        (
            U32x4::from_array([low(first), low(second), low(third), low(fourth)]),
            U32x4::from_array([high(first), high(second), high(third), high(fourth)]),
            U32x4::splat(x[14]),
            U32x4::splat(x[15]),
        ),
    )
}

// Vector j of the result holds lane j of each of the four vectors.
#[inline(always)]
fn transposed(row: Row<U32x4>) -> Rows {
    let (a, b, c, d) = row;
    let [a0, a1, a2, a3] = a.to_array();
    let [b0, b1, b2, b3] = b.to_array();
    let [c0, c1, c2, c3] = c.to_array();
    let [d0, d1, d2, d3] = d.to_array();
    [
        U32x4::from_array([a0, b0, c0, d0]),
        U32x4::from_array([a1, b1, c1, d1]),
        U32x4::from_array([a2, b2, c2, d2]),
        U32x4::from_array([a3, b3, c3, d3]),
    ]
}

#[inline(always)]
fn matrices(x: Matrices<U32x4>) -> FourBlocks {
    let [a0, a1, a2, a3] = transposed(x.0);
    let [b0, b1, b2, b3] = transposed(x.1);
    let [c0, c1, c2, c3] = transposed(x.2);
    let [d0, d1, d2, d3] = transposed(x.3);
    (
        matrix_of([a0, b0, c0, d0]),
        matrix_of([a1, b1, c1, d1]),
        matrix_of([a2, b2, c2, d2]),
        matrix_of([a3, b3, c3, d3]),
    )
}

// Returns the block of the given state and those of the three states that follow it.
#[inline(always)]
pub(crate) fn four_blocks<const ROUNDS: u8>(x: &[u32; 16]) -> FourBlocks {
    matrices(blocks_of::<U32x4, ROUNDS>(four_states(x)))
}
