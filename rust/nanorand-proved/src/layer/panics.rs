//! The messages of the calls that panic in place of returning an error.

use crate::rand::Rng;
use crate::values::{RandomRange, RangeError};
use core::fmt::{self, Display, Formatter};
use core::marker::PhantomData;
use core::ops::Bound;

// Panics with the text of the error.
#[cold]
#[inline(never)]
#[track_caller]
pub(crate) fn refused(error: impl Display) -> ! {
    panic!("{error}")
}

// Panics with this text if the error is `Empty`, and with the text of the error otherwise.
#[cold]
#[inline(never)]
#[track_caller]
pub(crate) fn refused_for(error: RangeError, if_empty: &str) -> ! {
    match error {
        RangeError::Empty => panic!("{if_empty}"),
        RangeError::Exhausted => panic!("{error}"),
    }
}

// Panics with the range if the error is `Empty`, and with the text of the error otherwise.
#[cold]
#[inline(never)]
#[track_caller]
pub(crate) fn refused_range<T, G, const OUTPUT: usize>(
    error: RangeError,
    low: Bound<T>,
    high: Bound<T>,
) -> !
where
    T: RandomRange<G, OUTPUT>,
    G: Rng<OUTPUT>,
{
    let range = Range(low, high, PhantomData);
    match error {
        RangeError::Empty => panic!("cannot sample empty range {range}"),
        RangeError::Exhausted => panic!("{error}"),
    }
}

// A range, as Rust writes it.
struct Range<T, G, const OUTPUT: usize>(Bound<T>, Bound<T>, PhantomData<fn(&mut G)>);

impl<T, G, const OUTPUT: usize> Display for Range<T, G, OUTPUT>
where
    T: RandomRange<G, OUTPUT>,
    G: Rng<OUTPUT>,
{
    fn fmt(&self, f: &mut Formatter<'_>) -> fmt::Result {
        let low = match &self.0 {
            Bound::Included(low) => low.write_bound(f),
            Bound::Excluded(low) => low.write_bound(f).and_then(|()| f.write_str(" (excluded)")),
            Bound::Unbounded => Ok(()),
        };
        let dots = low.and_then(|()| f.write_str(".."));
        match &self.1 {
            Bound::Included(high) => dots
                .and_then(|()| f.write_str("="))
                .and_then(|()| high.write_bound(f)),
            Bound::Excluded(high) => dots.and_then(|()| high.write_bound(f)),
            Bound::Unbounded => dots,
        }
    }
}
