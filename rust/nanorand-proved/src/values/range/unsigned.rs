//! Ranges of the unsigned types.

use super::{draw_number, RandomRange, RangeError};
use crate::rand::Rng;
use core::ops::Bound;

impl<G: Rng<OUTPUT>, const OUTPUT: usize> RandomRange<G, OUTPUT> for u8 {
    #[inline(always)]
    fn random_range(rng: &mut G, low: Bound<u8>, high: Bound<u8>) -> Result<u8, RangeError> {
        draw_number(rng, low, high)
    }

    fn write_bound(&self, f: &mut core::fmt::Formatter<'_>) -> core::fmt::Result {
        write!(f, "{self}")
    }
}

impl<G: Rng<OUTPUT>, const OUTPUT: usize> RandomRange<G, OUTPUT> for u16 {
    #[inline(always)]
    fn random_range(rng: &mut G, low: Bound<u16>, high: Bound<u16>) -> Result<u16, RangeError> {
        draw_number(rng, low, high)
    }

    fn write_bound(&self, f: &mut core::fmt::Formatter<'_>) -> core::fmt::Result {
        write!(f, "{self}")
    }
}

impl<G: Rng<OUTPUT>, const OUTPUT: usize> RandomRange<G, OUTPUT> for u32 {
    #[inline(always)]
    fn random_range(rng: &mut G, low: Bound<u32>, high: Bound<u32>) -> Result<u32, RangeError> {
        draw_number(rng, low, high)
    }

    fn write_bound(&self, f: &mut core::fmt::Formatter<'_>) -> core::fmt::Result {
        write!(f, "{self}")
    }
}

impl<G: Rng<OUTPUT>, const OUTPUT: usize> RandomRange<G, OUTPUT> for u64 {
    #[inline(always)]
    fn random_range(rng: &mut G, low: Bound<u64>, high: Bound<u64>) -> Result<u64, RangeError> {
        draw_number(rng, low, high)
    }

    fn write_bound(&self, f: &mut core::fmt::Formatter<'_>) -> core::fmt::Result {
        write!(f, "{self}")
    }
}

impl<G: Rng<OUTPUT>, const OUTPUT: usize> RandomRange<G, OUTPUT> for usize {
    #[inline(always)]
    fn random_range(
        rng: &mut G,
        low: Bound<usize>,
        high: Bound<usize>,
    ) -> Result<usize, RangeError> {
        draw_number(rng, low, high)
    }

    fn write_bound(&self, f: &mut core::fmt::Formatter<'_>) -> core::fmt::Result {
        write!(f, "{self}")
    }
}
