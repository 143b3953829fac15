//! The integer types that have ranges.

mod signed;
mod unsigned;

/// An integer type of `BITS` bits: 8, 16, 32 or 64.
///
/// Each number has a rank, from 0 for the least number to 2^BITS - 1 for the greatest. `usize` and
/// `isize` have `BITS` 64 on every machine, and fewer ranks if they have fewer bits. For a type of
/// your own you choose the order of the ranks: it is not compared with the type's `<`.
pub trait Number: Copy {
    /// The width of the type, in bits.
    const BITS: u32;

    /// Returns the rank of a number.
    fn place(self) -> u64;

    /// Returns the number of a rank. The rank is below 2^BITS; for other arguments the result is
    /// unspecified.
    fn at_place(place: u64) -> Self;
}
