//! Random durations, and ranges of durations. Hand-written on top of ranges of `u64` and `u128`,
//! and tested, not proved.

use super::mapped;
use crate::rand::Rng;
use crate::values::{RandomGen, RandomRange, RangeError};
use core::ops::Bound;
use core::time::Duration;

const NANOSECONDS: u128 = 1_000_000_000;

/// Draws one of all durations, from zero to `Duration::MAX`. Each is produced by the same number of
/// words of 128 bits. The value is zero if 128 words in a row were rejected, since drawing a value
/// cannot return an error.
impl<G: Rng<OUTPUT>, const OUTPUT: usize> RandomGen<G, OUTPUT> for Duration {
    #[inline]
    fn random(rng: &mut G) -> Duration {
        Duration::random_range(rng, Bound::Unbounded, Bound::Unbounded).unwrap_or_default()
    }
}

/// Draws one of the durations within both bounds, in nanoseconds. Each is produced by the same
/// number of words: of 64 bits if both bounds are below 2^64 nanoseconds, which are 584 years, and
/// of 128 bits otherwise. The errors are those of the integer types.
impl<G: Rng<OUTPUT>, const OUTPUT: usize> RandomRange<G, OUTPUT> for Duration {
    #[inline]
    fn random_range(
        rng: &mut G,
        low: Bound<Duration>,
        high: Bound<Duration>,
    ) -> Result<Duration, RangeError> {
        let high = match high {
            Bound::Unbounded => Bound::Included(Duration::MAX),
            bound => bound,
        };
        let (low, high) = (mapped(low, nanoseconds), mapped(high, nanoseconds));
        match (narrow(low), narrow(high)) {
            (Some(low), Some(high)) => u64::random_range(rng, low, high).map(Duration::from_nanos),
            _ => u128::random_range(rng, low, high).map(from_nanoseconds),
        }
    }

    fn write_bound(&self, f: &mut core::fmt::Formatter<'_>) -> core::fmt::Result {
        write!(f, "{self:?}")
    }
}

// Returns the bound as a number of 64 bits, if it is one.
#[inline]
fn narrow(bound: Bound<u128>) -> Option<Bound<u64>> {
    Some(match bound {
        Bound::Included(count) => Bound::Included(u64::try_from(count).ok()?),
        Bound::Excluded(count) => Bound::Excluded(u64::try_from(count).ok()?),
        Bound::Unbounded => Bound::Unbounded,
    })
}

#[inline]
fn nanoseconds(duration: Duration) -> u128 {
    duration.as_nanos()
}

// Returns the duration of at most `Duration::MAX`.
#[inline]
fn from_nanoseconds(count: u128) -> Duration {
    Duration::new((count / NANOSECONDS) as u64, (count % NANOSECONDS) as u32)
}
