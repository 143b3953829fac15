//! The blocks of eight consecutive counters, computed at once on vectors of eight lanes.

use super::four_blocks::FourBlocks;
use super::side_by_side::{blocks_of, Matrices, Row};
use super::state::{counter, high, low};
use super::wide::{joined, woven, woven_pairs, EightLanes};
use crate::simd::U32x8;

// Four vectors, each with one word in all of its lanes.
#[inline(always)]
fn splat_row(lanes: EightLanes, a: u32, b: u32, c: u32, d: u32) -> Row<U32x8> {
    (
        lanes.splat(a),
        lanes.splat(b),
        lanes.splat(c),
        lanes.splat(d),
    )
}

// The given state and the seven that follow it. The counter may wrap around within the eight.
#[inline(always)]
fn eight_states(lanes: EightLanes, x: &[u32; 16]) -> Matrices<U32x8> {
    let first = counter(x);
    let counters = [
        first,
        first.wrapping_add(1),
        first.wrapping_add(2),
        first.wrapping_add(3),
        first.wrapping_add(4),
        first.wrapping_add(5),
        first.wrapping_add(6),
        first.wrapping_add(7),
    ];
    (
        splat_row(lanes, x[0], x[1], x[2], x[3]),
        splat_row(lanes, x[4], x[5], x[6], x[7]),
        splat_row(lanes, x[8], x[9], x[10], x[11]),
        (
            lanes.vector(counters.map(low)),
            lanes.vector(counters.map(high)),
            lanes.splat(x[14]),
            lanes.splat(x[15]),
        ),
    )
}

// Vector k of the result holds lane k of each of the four vectors, and then lane 4 + k of each.
#[inline(always)]
fn woven_row(row: Row<U32x8>) -> Row<U32x8> {
    let (a, b, c, d) = row;
    let (p, r) = woven(a, b);
    let (q, s) = woven(c, d);
    let (first, second) = woven_pairs(p, q);
    let (third, fourth) = woven_pairs(r, s);
    (first, second, third, fourth)
}

// The words of `a`, and then those of `b`.
#[inline(always)]
fn sixteen_of(a: U32x8, b: U32x8) -> [u32; 16] {
    let [a0, a1, a2, a3, a4, a5, a6, a7] = a.to_array();
    let [b0, b1, b2, b3, b4, b5, b6, b7] = b.to_array();
    [
        a0, a1, a2, a3, a4, a5, a6, a7, b0, b1, b2, b3, b4, b5, b6, b7,
    ]
}

// Each of the four vectors holds a row of one matrix and then the same row of another. Returns the
// two matrices.
#[inline(always)]
fn two_matrices(p: U32x8, q: U32x8, r: U32x8, s: U32x8) -> ([u32; 16], [u32; 16]) {
    let (a, c) = joined(p, q);
    let (b, d) = joined(r, s);
    (sixteen_of(a, b), sixteen_of(c, d))
}

#[inline(always)]
fn eight_matrices(x: Matrices<U32x8>) -> (FourBlocks, FourBlocks) {
    let (p0, p1, p2, p3) = woven_row(x.0);
    let (q0, q1, q2, q3) = woven_row(x.1);
    let (r0, r1, r2, r3) = woven_row(x.2);
    let (s0, s1, s2, s3) = woven_row(x.3);
    let (first, fifth) = two_matrices(p0, q0, r0, s0);
    let (second, sixth) = two_matrices(p1, q1, r1, s1);
    let (third, seventh) = two_matrices(p2, q2, r2, s2);
    let (fourth, eighth) = two_matrices(p3, q3, r3, s3);
    (
        (first, second, third, fourth),
        (fifth, sixth, seventh, eighth),
    )
}

// Returns the block of the given state and those of the seven states that follow it.
#[inline(always)]
pub(crate) fn eight_blocks<const ROUNDS: u8>(
    lanes: EightLanes,
    x: &[u32; 16],
) -> (FourBlocks, FourBlocks) {
    eight_matrices(blocks_of::<U32x8, ROUNDS>(eight_states(lanes, x)))
}
