//! The three calls of `fastrand` 1 that its clients `tempfile`, `async-executor` and `futures-lite` make. Each draws
//! from the calling thread's `WyRand`, which the operating system seeds.
#![forbid(unsafe_code)]
#![deny(missing_docs)]

use nanorand_proved::{Rng, WyRand};
use std::cell::RefCell;
use std::ops::RangeBounds;

thread_local!(static OWN: RefCell<WyRand> = RefCell::default());

/// Draws a letter from `A` to `Z` or `a` to `z`, or a digit. `tempfile` makes file names from them.
#[must_use]
pub fn alphanumeric() -> char {
    OWN.with(|rng| rng.borrow_mut().alphanumeric())
}

/// Draws true or false, equally likely. `futures-lite` chooses by it which of two futures it polls first.
#[must_use]
pub fn bool() -> bool {
    OWN.with(|rng| rng.borrow_mut().generate())
}

/// Draws a number from a range. `async-executor` chooses by it which queue it steals from first.
///
/// # Panics
///
/// Panics if the range is empty.
pub fn usize(range: impl RangeBounds<usize>) -> usize {
    OWN.with(|rng| rng.borrow_mut().range(range))
}

#[cfg(test)]
mod tests {
    use std::collections::BTreeSet;

    /// Each value is among 10,000: that one is missing happens with probability below 10^-60.
    #[test]
    fn all_values() {
        let characters: BTreeSet<_> = (0..10_000).map(|_| super::alphanumeric()).collect();
        let wanted = ('0'..='9').chain('A'..='Z').chain('a'..='z');
        assert!(characters.into_iter().eq(wanted));
        let truths: BTreeSet<_> = (0..10_000).map(|_| super::bool()).collect();
        assert!(truths.into_iter().eq([false, true]));
        let numbers: BTreeSet<_> = (0..10_000).map(|_| super::usize(3..9)).collect();
        assert!(numbers.into_iter().eq(3..9));
    }
}
