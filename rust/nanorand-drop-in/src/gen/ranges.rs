//! Numbers from ranges, and the messages of the panics.

use super::RandomRange;
use crate::adapter::Lent;
use crate::rand::Rng;
use core::fmt::{self, Debug, Display, Formatter};
use core::ops::{Bound, RangeBounds};
use nanorand_proved as proved;
use nanorand_proved::RangeError;

macro_rules! proved_ranges {
    ($($number:ty),+) => { $(
        impl<G: Rng<OUTPUT>, const OUTPUT: usize> RandomRange<G, OUTPUT> for $number {
            // Inlining makes a range faster if its bounds are constants.
            #[allow(clippy::inline_always)]
            #[inline(always)]
            #[track_caller]
            fn random_range<Bounds: RangeBounds<Self>>(rng: &mut G, range: Bounds) -> Self {
                let low = range.start_bound().cloned();
                let high = range.end_bound().cloned();
                let drawn = proved::RandomRange::<_, OUTPUT>::random_range(&mut Lent(rng), low, high);
                match drawn {
                    Ok(number) => number,
                    Err(error) => refused(&Bounded(low, high), error),
                }
            }
        }
    )+ };
}

proved_ranges!(u8, u16, u32, u64, usize, i8, i16, i32, i64, isize);

#[cold]
#[track_caller]
fn refused(range: &dyn Display, error: RangeError) -> ! {
    match error {
        RangeError::Empty => panic!("the range {range} contains no number"),
        RangeError::Exhausted => panic!("{error} for the range {range}"),
    }
}

/// A range, displayed as a program writes it.
struct Bounded<Number>(Bound<Number>, Bound<Number>);

impl<Number: Debug> Display for Bounded<Number> {
    fn fmt(&self, f: &mut Formatter<'_>) -> fmt::Result {
        let Self(low, high) = self;
        match low {
            Bound::Included(low) => write!(f, "{low:?}..")?,
            Bound::Unbounded => f.write_str("..")?,
            Bound::Excluded(_) => return write!(f, "{:?}", (low, high)),
        }
        match high {
            Bound::Included(high) => write!(f, "={high:?}"),
            Bound::Excluded(high) => write!(f, "{high:?}"),
            Bound::Unbounded => Ok(()),
        }
    }
}
