//! Random integers other than 0. Hand-written and tested, not proved.

use super::first_accepted;
use crate::rand::Rng;
use crate::values::RandomGen;
use core::num::{NonZeroI128, NonZeroI16, NonZeroI32, NonZeroI64, NonZeroI8, NonZeroIsize};
use core::num::{NonZeroU128, NonZeroU16, NonZeroU32, NonZeroU64, NonZeroU8, NonZeroUsize};

macro_rules! nonzero {
    ($($number:ident)+) => { $(
        /// Draws values of the integer type, at most 128, and returns the first that is not 0.
        /// Returns 1 if all of them are 0.
        impl<G: Rng<OUTPUT>, const OUTPUT: usize> RandomGen<G, OUTPUT> for $number {
            #[inline]
            fn random(rng: &mut G) -> Self {
                let drawn = first_accepted(rng, |rng| Self::new(rng.generate()));
                drawn.or(Self::new(1)).expect("1 is not 0")
            }
        }
    )+ };
}

nonzero!(NonZeroU8 NonZeroU16 NonZeroU32 NonZeroU64 NonZeroU128 NonZeroUsize);
nonzero!(NonZeroI8 NonZeroI16 NonZeroI32 NonZeroI64 NonZeroI128 NonZeroIsize);
