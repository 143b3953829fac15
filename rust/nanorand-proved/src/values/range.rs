//! Numbers within two bounds.

mod signed;
mod unsigned;

use crate::rand::Rng;
use crate::values::number::Number;
use crate::values::word::draw_below;
use crate::values::RandomGen;
use core::ops::Bound;

/// The reasons why a draw from a range, a slice, a ratio or a sample returned nothing. `Rng::range`
/// and `Rng::permute` panic instead. The meanings given here are those of the integer types; a type
/// of your own defines when it returns each error.
#[derive(Clone, Copy, Debug, PartialEq, Eq)]
pub enum RangeError {
    /// The range or the slice is empty, or the denominator of a ratio is 0. Nothing was drawn.
    Empty,
    /// 128 words (random integers of the type's width) were drawn, and all were rejected. They stay
    /// consumed.
    Exhausted,
}

impl core::fmt::Display for RangeError {
    fn fmt(&self, f: &mut core::fmt::Formatter<'_>) -> core::fmt::Result {
        f.write_str(match self {
            RangeError::Empty => "there is nothing to draw from",
            RangeError::Exhausted => "128 words in a row were rejected",
        })
    }
}

#[cfg(feature = "std")]
impl std::error::Error for RangeError {}

/// A type whose values can be drawn within two bounds: the integer types, `char`, `f32`, `f64` and
/// `Duration`. `OUTPUT` is the number of bytes of the generator's blocks.
///
/// **Integers.** A word is a random integer of the type's width (64 bits for `usize` and `isize`),
/// read by one request. At most 128 words are drawn, and the first that is not rejected decides.
/// Each number within both bounds is produced by the same number of words.
///
/// **Characters.** A range of `char` is drawn in the same way from words of 32 bits; surrogates are
/// skipped.
///
/// **Durations.** A range of `Duration` is drawn as the range of its nanoseconds: in `u64` if both
/// bounds are below 2^64 nanoseconds (584 years), and in `u128` otherwise.
///
/// **Floats.** The value is `low + (high - low) * part`, rounded. Let k be the top 53 bits of a
/// 64-bit word. `part` is k / 2^53 if `high` is excluded, and k / (2^53 - 1) if it is included, so
/// that `high` can occur. For `f32` it is the same with the top 24 bits of a 32-bit word. An
/// unbounded side ends at the least or greatest finite number of the type. A number that equals an
/// excluded bound, as rounding may cause, is rejected, and the next word is used; at most 128 words
/// are drawn. Because of the rounding, the numbers are not exactly equally likely, and on x86
/// without SSE2 their last bit may differ.
///
/// A type of your own defines what its bounds mean and when a draw fails.
#[cfg_attr(
    diagnostic_hints,
    diagnostic::on_unimplemented(
        message = "`{Self}` has no ranges",
        note = "for a type of your own, implement `RandomRange`",
        note = "for other types, draw a number and convert it; for a time, add a random `Duration`"
    )
)]
pub trait RandomRange<G: Rng<OUTPUT>, const OUTPUT: usize>: RandomGen<G, OUTPUT> + Sized {
    /// Draws a value within the bounds.
    ///
    /// # Errors
    ///
    /// Returns an error as the type defines. The types of this library return `Empty` if the range
    /// is empty; nothing is drawn then. They return `Exhausted` after 128 rejected words, which
    /// stay consumed. A range of floats is empty if a bound is infinite or NaN, if the low bound is
    /// above the high one, or if both are equal and one is excluded.
    fn random_range(rng: &mut G, low: Bound<Self>, high: Bound<Self>) -> Result<Self, RangeError>;

    /// Writes a bound of an empty range into the message of a panic.
    #[doc(hidden)]
    fn write_bound(&self, f: &mut core::fmt::Formatter<'_>) -> core::fmt::Result {
        f.write_str("_")
    }
}

/// Draws a number within both bounds. Each number is produced by the same number of words, by the
/// method of Daniel Lemire ("Fast Random Integer Generation in an Interval", 2019).
///
/// At most 128 words of the type's width are drawn, each by one request, and the first that is not
/// rejected decides.
///
/// # Errors
///
/// Returns `Empty` if there is no number within the bounds; nothing is drawn then. Returns
/// `Exhausted` if 128 words in a row were rejected; they stay consumed.
#[inline(always)]
pub fn draw_number<T: Number, G: Rng<OUTPUT>, const OUTPUT: usize>(
    rng: &mut G,
    low: Bound<T>,
    high: Bound<T>,
) -> Result<T, RangeError> {
    let first = first_place(low);
    let end = end_place(high);
    if end <= first {
        return Err(RangeError::Empty);
    }
    match draw_below(rng, end - first, T::BITS) {
        Some(k) => Ok(T::at_place((first + u128::from(k)) as u64)),
        None => Err(RangeError::Exhausted),
    }
}

// Returns the least rank whose number the low bound allows, or 2^BITS if there is none.
#[inline(always)]
fn first_place<T: Number>(low: Bound<T>) -> u128 {
    match low {
        Bound::Included(number) => u128::from(number.place()),
        Bound::Excluded(number) => u128::from(number.place()) + 1,
        Bound::Unbounded => 0,
    }
}

// Returns the greatest rank whose number the high bound allows, plus 1, or 0 if there is none.
#[inline(always)]
fn end_place<T: Number>(high: Bound<T>) -> u128 {
    match high {
        Bound::Included(number) => u128::from(number.place()) + 1,
        Bound::Excluded(number) => u128::from(number.place()),
        Bound::Unbounded => u128::from(T::at_place(u64::MAX >> (64 - T::BITS)).place()) + 1,
    }
}
