//! Vectors of eight lanes. They are hand-written, since Rattle has no way to ask whether the
//! processor has them.

use super::vectors::Vector;
use crate::simd::U32x8;
pub(crate) use crate::simd::{EightLanes, Wide};

impl Vector for U32x8 {
    #[inline(always)]
    fn add(self, other: Self) -> Self {
        self + other
    }

    #[inline(always)]
    fn xor_rotate(self, other: Self, n: u32) -> Self {
        (self ^ other).rotate_left(n)
    }
}

// Interleaves the words of two vectors: first the words of lanes 0, 1, 4 and 5, then the words of
// the other lanes.
#[inline(always)]
pub(crate) fn woven(a: U32x8, b: U32x8) -> (U32x8, U32x8) {
    a.woven(b)
}

// Does the same with pairs of words in place of words.
#[inline(always)]
pub(crate) fn woven_pairs(a: U32x8, b: U32x8) -> (U32x8, U32x8) {
    a.woven_pairs(b)
}

// Returns the first halves of both vectors, and then their second halves.
#[inline(always)]
pub(crate) fn joined(a: U32x8, b: U32x8) -> (U32x8, U32x8) {
    a.joined(b)
}
