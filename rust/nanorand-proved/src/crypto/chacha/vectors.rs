//! Vectors of 32-bit words: the operations that the rounds need, and their implementation on four
//! lanes.

use crate::simd::U32x4;

// The operations of the rounds on a vector. Each applies to all lanes alike.
pub(crate) trait Vector: Copy {
    // Adds lane by lane, modulo 2^32.
    fn add(self, other: Self) -> Self;

    // Computes the xor of each lane with that of `other`, and rotates it left by `n` bits.
    fn xor_rotate(self, other: Self, n: u32) -> Self;
}

impl Vector for U32x4 {
    #[inline(always)]
    fn add(self, other: Self) -> Self {
        self + other
    }

    #[inline(always)]
    fn xor_rotate(self, other: Self, n: u32) -> Self {
        let x = self ^ other;
        (x << U32x4::splat(n)) | (x >> U32x4::splat(32 - n))
    }
}
