//! The values that a generator draws, and the ranges.

mod ranges;
mod values;

use crate::rand::Rng;
use core::ops::RangeBounds;

/// A type whose values can be drawn from a generator. `OUTPUT` is the number of bytes of a block.
///
/// An integer takes one request (one read) of its bytes, in little-endian order; `usize` and
/// `isize` take 8 bytes on every machine. `bool` takes a byte, and is true if it is below 128.
/// `f32` and `f64` take a `u32` and a `u64`, and divide it by the greatest number of that type: the
/// result is in [0, 1], both ends included. It is rounded, so the values are not exactly equally
/// likely.
pub trait RandomGen<G: Rng<OUTPUT>, const OUTPUT: usize> {
    /// Draws a value.
    fn random(rng: &mut G) -> Self;
}

/// A type whose values can be drawn from a range: the integers of 8 to 64 bits, `usize` and
/// `isize`.
pub trait RandomRange<G: Rng<OUTPUT>, const OUTPUT: usize>: RandomGen<G, OUTPUT> {
    /// Draws a number from the range. Each number is produced by the same number of words (random
    /// integers of the type's width).
    ///
    /// # Panics
    ///
    /// Panics if the range is empty, or if 128 words in a row were rejected; these stay consumed.
    #[track_caller]
    fn random_range<Bounds: RangeBounds<Self>>(rng: &mut G, range: Bounds) -> Self;
}
