//! Ranges of the signed types.

use super::{draw_number, RandomRange, RangeError};
use crate::rand::Rng;
use core::ops::Bound;

impl<G: Rng<OUTPUT>, const OUTPUT: usize> RandomRange<G, OUTPUT> for i8 {
    #[inline(always)]
    fn random_range(rng: &mut G, low: Bound<i8>, high: Bound<i8>) -> Result<i8, RangeError> {
        draw_number(rng, low, high)
    }

    fn write_bound(&self, f: &mut core::fmt::Formatter<'_>) -> core::fmt::Result {
        write!(f, "{self}")
    }
}

impl<G: Rng<OUTPUT>, const OUTPUT: usize> RandomRange<G, OUTPUT> for i16 {
    #[inline(always)]
    fn random_range(rng: &mut G, low: Bound<i16>, high: Bound<i16>) -> Result<i16, RangeError> {
        draw_number(rng, low, high)
    }

    fn write_bound(&self, f: &mut core::fmt::Formatter<'_>) -> core::fmt::Result {
        write!(f, "{self}")
    }
}

impl<G: Rng<OUTPUT>, const OUTPUT: usize> RandomRange<G, OUTPUT> for i32 {
    #[inline(always)]
    fn random_range(rng: &mut G, low: Bound<i32>, high: Bound<i32>) -> Result<i32, RangeError> {
        draw_number(rng, low, high)
    }

    fn write_bound(&self, f: &mut core::fmt::Formatter<'_>) -> core::fmt::Result {
        write!(f, "{self}")
    }
}

impl<G: Rng<OUTPUT>, const OUTPUT: usize> RandomRange<G, OUTPUT> for i64 {
    #[inline(always)]
    fn random_range(rng: &mut G, low: Bound<i64>, high: Bound<i64>) -> Result<i64, RangeError> {
        draw_number(rng, low, high)
    }

    fn write_bound(&self, f: &mut core::fmt::Formatter<'_>) -> core::fmt::Result {
        write!(f, "{self}")
    }
}

impl<G: Rng<OUTPUT>, const OUTPUT: usize> RandomRange<G, OUTPUT> for isize {
    #[inline(always)]
    fn random_range(
        rng: &mut G,
        low: Bound<isize>,
        high: Bound<isize>,
    ) -> Result<isize, RangeError> {
        draw_number(rng, low, high)
    }

    fn write_bound(&self, f: &mut core::fmt::Formatter<'_>) -> core::fmt::Result {
        write!(f, "{self}")
    }
}
