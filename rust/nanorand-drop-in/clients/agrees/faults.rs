//! Ranges, and the calls for which nanorand 0.7.0 does not do what it documents.

use crate::own::State;
use crate::pair::{below, Pair};
use nanorand_proved::{Rng, WyRand};
use std::cell::Cell;
use std::collections::BTreeMap;
use std::fmt::Debug;
use std::ops::Bound;
use std::panic::{self, AssertUnwindSafe};

/// A listed fault of nanorand 0.7.0.
#[derive(Clone, Copy, Debug, PartialEq, Eq, PartialOrd, Ord)]
pub enum Fault {
    /// An empty range returns a number.
    EmptyRange,
    /// A range of several unsigned numbers never returns the type's maximum.
    UnsignedWithoutMax,
    /// A signed range is one too low.
    SignedTooLow,
    /// A signed range from the minimum may return the maximum.
    SignedFromMin,
    /// A signed range up to the maximum lacks one number.
    SignedToMax,
}

impl Fault {
    /// Whether the call draws as many words as it should, so that later calls draw the same words.
    fn keeps_the_stream(self) -> bool {
        matches!(self, Self::SignedTooLow | Self::SignedFromMin)
    }
}

/// How often a call showed each fault.
pub type Faults = BTreeMap<Fault, u32>;

/// The integers that have ranges.
pub trait Number: Copy + PartialEq + Debug {
    const LEAST: Self;
    const GREATEST: Self;
    fn wide(self) -> i128;
    /// The number plus `count`, modulo the type's size.
    fn plus(self, count: i128) -> Self;
    fn any(choices: &mut WyRand) -> Self;
}

macro_rules! numbers {
    ($($number:ty),+) => { $(
        // All casts are meant to wrap.
        #[allow(clippy::cast_lossless, clippy::cast_possible_truncation, clippy::cast_sign_loss)]
        impl Number for $number {
            const LEAST: Self = <$number>::MIN;
            const GREATEST: Self = <$number>::MAX;

            fn wide(self) -> i128 {
                self as i128
            }

            fn plus(self, count: i128) -> Self {
                (self as i128 + count) as Self
            }

            fn any(choices: &mut WyRand) -> Self {
                choices.generate()
            }
        }
    )+ };
}

numbers!(u8, u16, u32, u64, usize, i8, i16, i32, i64, isize);

thread_local! {
    static EXPECTED: Cell<bool> = const { Cell::new(false) };
}

/// The result, or `None` if the call panics. Other panics are printed.
pub fn caught<T>(call: impl FnOnce() -> T) -> Option<T> {
    EXPECTED.with(|expected| expected.set(true));
    let result = panic::catch_unwind(AssertUnwindSafe(call)).ok();
    EXPECTED.with(|expected| expected.set(false));
    result
}

/// Suppresses the messages of panics in `caught`.
pub fn quiet() {
    let shown = panic::take_hook();
    panic::set_hook(Box::new(move |panic| {
        if !EXPECTED.with(Cell::get) {
            shown(panic);
        }
    }));
}

/// A bound near an end of the type, near 0, near `other`, or anywhere.
fn bound<T: Number>(choices: &mut WyRand, other: T) -> Bound<T> {
    let near = i128::from(choices.generate::<u8>() % 8) - 4;
    let number = match below(choices, 6) {
        0 => T::LEAST.plus(near.max(0)),
        1 => T::GREATEST.plus(near.min(0)),
        2 => T::GREATEST.plus(-(T::GREATEST.wide() / 2)).plus(near),
        3 | 4 => other.plus(near),
        _ => T::any(choices),
    };
    match below(choices, 5) {
        0 => Bound::Unbounded,
        1 | 2 => Bound::Included(number),
        _ => Bound::Excluded(number),
    }
}

/// The first and the last number of a range. It is empty if the last is less than the first.
fn ends<T: Number>(low: Bound<T>, high: Bound<T>) -> (i128, i128) {
    let first = match low {
        Bound::Included(low) => low.wide(),
        Bound::Excluded(low) => low.wide() + 1,
        Bound::Unbounded => T::LEAST.wide(),
    };
    let last = match high {
        Bound::Included(high) => high.wide(),
        Bound::Excluded(high) => high.wide() - 1,
        Bound::Unbounded => T::GREATEST.wide(),
    };
    (first, last)
}

/// The fault of a call, which depends only on the bounds.
fn fault_of<T: Number>(first: i128, last: i128) -> Option<Fault> {
    let signed = T::LEAST.wide() < 0;
    let to_max = last == T::GREATEST.wide();
    if last < first {
        Some(Fault::EmptyRange)
    } else if signed && to_max {
        Some(Fault::SignedToMax)
    } else if signed && first == T::LEAST.wide() {
        Some(Fault::SignedFromMin)
    } else if signed {
        Some(Fault::SignedTooLow)
    } else if to_max && first < last {
        Some(Fault::UnsignedWithoutMax)
    } else {
        None
    }
}

impl<New, Old, const SEED: usize, const OUTPUT: usize> Pair<New, Old, SEED, OUTPUT>
where
    New: new::SeedableRng<SEED, OUTPUT> + State,
    Old: old::SeedableRng<SEED, OUTPUT> + State,
{
    /// Draws from a range of the type.
    pub fn number<T>(&mut self, choices: &mut WyRand, faults: &mut Faults)
    where
        T: Number + new::RandomRange<New, OUTPUT> + old::RandomRange<Old, OUTPUT>,
    {
        let start = T::any(choices);
        let range = (bound(choices, start), bound(choices, start));
        let (first, last) = ends(range.0, range.1);
        match fault_of::<T>(first, last) {
            None => {
                let drawn: T = self.new.generate_range(range);
                assert_eq!(drawn, self.old.generate_range(range), "{range:?}");
            }
            Some(fault) => {
                let mut old = self.old.clone();
                let drawn = caught(|| old.generate_range(range));
                if drawn != self.right_number(range, first, last) {
                    *faults.entry(fault).or_default() += 1;
                }
                if fault.keeps_the_stream() {
                    assert_eq!(self.new.state(), old.state(), "{range:?}");
                }
            }
        }
    }

    /// The number that this crate draws, which is the right one. An empty range has none, and draws
    /// nothing.
    fn right_number<T>(&mut self, range: (Bound<T>, Bound<T>), first: i128, last: i128) -> Option<T>
    where
        T: Number + new::RandomRange<New, OUTPUT> + old::RandomRange<Old, OUTPUT>,
    {
        let before = self.new.clone();
        let drawn = caught(|| self.new.generate_range(range));
        if last < first {
            let states = (self.new.state(), before.state());
            assert_eq!((drawn, states.0), (None, states.1), "{range:?}");
        } else {
            assert_eq!(drawn, Some(self.right(first, last)), "{range:?}");
        }
        drawn
    }

    /// The number that the old crate draws from a range of the same size in which it has no fault,
    /// shifted to this range. A range of the whole type returns the words themselves.
    fn right<T>(&mut self, first: i128, last: i128) -> T
    where
        T: Number + old::RandomRange<Old, OUTPUT>,
    {
        let (start, signed) = (T::LEAST.wide(), T::LEAST.wide() < 0);
        if last < T::GREATEST.wide() {
            let low = T::LEAST.plus(first - start);
            let drawn: T = self.old.generate_range(low..=T::LEAST.plus(last - start));
            drawn.plus(i128::from(signed))
        } else if first > start {
            let low = T::LEAST.plus(first - start - 1);
            let drawn: T = self.old.generate_range(low..=T::GREATEST.plus(-1));
            drawn.plus(i128::from(signed) + 1)
        } else {
            let word: T = self.old.generate();
            word.plus(start)
        }
    }
}
