//! Random floating-point numbers, and ranges of them. Hand-written and tested, not proved.

use super::first_accepted;
use crate::rand::Rng;
use crate::values::{RandomGen, RandomRange, RangeError};
use core::fmt::{self, Formatter};
use core::ops::{Add, Bound, Div, Mul, Sub};

/// Multiplies the top 24 bits of a 32-bit word by 2^-24: a multiple of 2^-24 in [0, 1), each
/// equally likely.
impl<G: Rng<OUTPUT>, const OUTPUT: usize> RandomGen<G, OUTPUT> for f32 {
    #[inline(always)]
    fn random(rng: &mut G) -> f32 {
        f32::draw_step(rng) / f32::STEPS
    }
}

/// Multiplies the top 53 bits of a 64-bit word by 2^-53: a multiple of 2^-53 in [0, 1), each
/// equally likely.
impl<G: Rng<OUTPUT>, const OUTPUT: usize> RandomGen<G, OUTPUT> for f64 {
    #[inline(always)]
    #[allow(clippy::cast_precision_loss)] // 53 bits, as many as an `f64` has
    fn random(rng: &mut G) -> f64 {
        // Taken as a signed number it is smaller by 2^52, which is added back below. LLVM does not
        // vectorize the conversion of a signed number to a float; a vectorized conversion would be
        // slower.
        let signed = (i64::random(rng) ^ i64::MIN) >> 11;
        (signed as f64 + f64::STEPS / 2.0) / f64::STEPS
    }
}

/// Draws a number within both bounds from the top 24 bits of a 32-bit word, as [`RandomRange`]
/// describes.
impl<G: Rng<OUTPUT>, const OUTPUT: usize> RandomRange<G, OUTPUT> for f32 {
    #[inline(always)]
    fn random_range(rng: &mut G, low: Bound<f32>, high: Bound<f32>) -> Result<f32, RangeError> {
        draw_between(rng, low, high)
    }

    fn write_bound(&self, f: &mut Formatter<'_>) -> fmt::Result {
        write!(f, "{self:?}")
    }
}

/// Draws a number within both bounds from the top 53 bits of a 64-bit word, as [`RandomRange`]
/// describes.
impl<G: Rng<OUTPUT>, const OUTPUT: usize> RandomRange<G, OUTPUT> for f64 {
    #[inline(always)]
    fn random_range(rng: &mut G, low: Bound<f64>, high: Bound<f64>) -> Result<f64, RangeError> {
        draw_between(rng, low, high)
    }

    fn write_bound(&self, f: &mut Formatter<'_>) -> fmt::Result {
        write!(f, "{self:?}")
    }
}

// A floating-point type that represents all integers from 0 to `STEPS` exactly.
trait Float: Copy + PartialOrd
where
    Self: Add<Output = Self> + Sub<Output = Self> + Mul<Output = Self> + Div<Output = Self>,
{
    const ONE: Self;
    const TWO: Self;
    const STEPS: Self;
    const LEAST: Self;
    const GREATEST: Self;

    // Draws an integer below `STEPS`, from one word.
    fn draw_step<G: Rng<OUTPUT>, const OUTPUT: usize>(rng: &mut G) -> Self;

    // Returns whether the number is finite: not infinite and not NaN.
    fn is_number(self) -> bool {
        Self::LEAST <= self && self <= Self::GREATEST
    }
}

impl Float for f32 {
    const ONE: f32 = 1.0;
    const TWO: f32 = 2.0;
    const STEPS: f32 = 16_777_216.0;
    const LEAST: f32 = f32::MIN;
    const GREATEST: f32 = f32::MAX;

    #[inline(always)]
    #[allow(clippy::cast_precision_loss)] // 24 bits, as many as an `f32` has
    fn draw_step<G: Rng<OUTPUT>, const OUTPUT: usize>(rng: &mut G) -> f32 {
        (u32::random(rng) >> 8) as f32
    }
}

impl Float for f64 {
    const ONE: f64 = 1.0;
    const TWO: f64 = 2.0;
    const STEPS: f64 = 9_007_199_254_740_992.0;
    const LEAST: f64 = f64::MIN;
    const GREATEST: f64 = f64::MAX;

    #[inline(always)]
    #[allow(clippy::cast_precision_loss)] // 53 bits, as many as an `f64` has
    fn draw_step<G: Rng<OUTPUT>, const OUTPUT: usize>(rng: &mut G) -> f64 {
        (u64::random(rng) >> 11) as f64
    }
}

#[inline(always)]
fn draw_between<T: Float, G: Rng<OUTPUT>, const OUTPUT: usize>(
    rng: &mut G,
    low: Bound<T>,
    high: Bound<T>,
) -> Result<T, RangeError> {
    let range = Range::of(low, high).ok_or(RangeError::Empty)?;
    first_accepted(rng, |rng| range.draw(rng)).ok_or(RangeError::Exhausted)
}

// The ends of a range that is not empty, and whether each of them is excluded.
#[derive(Clone, Copy)]
struct Range<T> {
    low: T,
    high: T,
    low_excluded: bool,
    high_excluded: bool,
}

impl<T: Float> Range<T> {
    #[inline]
    fn of(low: Bound<T>, high: Bound<T>) -> Option<Self> {
        let (low, low_excluded) = end_of(low, T::LEAST);
        let (high, high_excluded) = end_of(high, T::GREATEST);
        let excluded = low_excluded || high_excluded;
        let ordered = low < high || low == high && !excluded;
        (low.is_number() && high.is_number() && ordered).then_some(Range {
            low,
            high,
            low_excluded,
            high_excluded,
        })
    }

    // Returns the number that the next word produces, or `None` if it is an excluded end.
    #[inline(always)]
    fn draw<G: Rng<OUTPUT>, const OUTPUT: usize>(self, rng: &mut G) -> Option<T> {
        let step = T::draw_step(rng);
        let last = T::STEPS - T::ONE;
        let number = if self.high_excluded {
            self.at(step / T::STEPS)
        } else if step == last {
            self.high
        } else {
            self.at(step / last)
        };
        let excluded =
            self.low_excluded && number == self.low || self.high_excluded && number == self.high;
        (!excluded).then_some(number)
    }

    // Returns the number at a fraction `part` of the way from `low` to `high`. The result never
    // exceeds `high`: the fraction shortens the way by more than rounding lengthens it. If
    // `high - low` overflows, the difference of the halves of both ends does not.
    #[inline(always)]
    fn at(self, part: T) -> T {
        let (low, high) = (self.low, self.high);
        let way = high - low;
        if way.is_number() {
            low + way * part
        } else {
            (low / T::TWO + (high / T::TWO - low / T::TWO) * part) * T::TWO
        }
    }
}

// Returns the number where a range ends, and whether it is excluded.
#[inline]
fn end_of<T>(bound: Bound<T>, unbounded: T) -> (T, bool) {
    match bound {
        Bound::Included(number) => (number, false),
        Bound::Excluded(number) => (number, true),
        Bound::Unbounded => (unbounded, false),
    }
}
