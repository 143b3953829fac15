//! The traits and implementations that a Rust program expects in addition to the proved functions.
//! They are hand-written on top of these.

mod any;
mod borrowed;
mod characters;
mod debug;
mod defaults;
mod durations;
mod dyn_calls;
mod floats;
mod hash;
mod iterator;
mod nonzero;
mod panics;
mod samples;
mod seeds;
mod streams;
mod tuples;
mod wide_numbers;
mod wrappers;

pub use any::{AnyRng, Lent};
pub use dyn_calls::{AnyRange, AnyValue};
pub use iterator::GenerateIter;
pub(crate) use panics::{refused, refused_for, refused_range};
pub(crate) use samples::table;

use crate::values::word::MAX_WORDS;
use core::ops::Bound;

/// Makes an odd number of rounds a compile-time error.
pub(crate) struct Rounds<const ROUNDS: u8>;

impl<const ROUNDS: u8> Rounds<ROUNDS> {
    pub(crate) const EVEN: () = assert!(ROUNDS % 2 == 0, "the number of rounds must be even");
}

/// Makes blocks of 0 bytes a compile-time error.
pub(crate) struct BlockLength<const OUTPUT: usize>;

impl<const OUTPUT: usize> BlockLength<OUTPUT> {
    pub(crate) const POSITIVE: () = assert!(0 < OUTPUT, "a block must have at least one byte");
}

// `Bound::map`, which Rust 1.63 does not have.
#[inline]
fn mapped<T, U>(bound: Bound<T>, map: impl FnOnce(T) -> U) -> Bound<U> {
    match bound {
        Bound::Included(value) => Bound::Included(map(value)),
        Bound::Excluded(value) => Bound::Excluded(map(value)),
        Bound::Unbounded => Bound::Unbounded,
    }
}

// Returns the first accepted draw of at most 128. The loop has a single exit: with two, LLVM
// vectorizes it, which makes it forty times slower. It is always inlined: before a call, the state
// of the generator would be stored to memory.
#[inline(always)]
fn first_accepted<G, T>(rng: &mut G, draw: impl Fn(&mut G) -> Option<T>) -> Option<T> {
    let mut accepted = draw(rng);
    let mut drawn = 1;
    while accepted.is_none() & (drawn < MAX_WORDS) {
        accepted = draw(rng);
        drawn += 1;
    }
    accepted
}
