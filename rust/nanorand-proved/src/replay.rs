//! Replays lists of calls: makes the calls of a list in order on a generator, and records one
//! answer for each.

use crate::{RandomGen, RandomRange, RangeError, Rng};
use core::ops::Bound;

/// The type of the value that [`Call::Gen`] draws.
#[derive(Clone, Copy, Debug, PartialEq, Eq)]
pub enum Kind {
    /// An `i8`.
    I8,
    /// An `i16`.
    I16,
    /// An `i32`.
    I32,
    /// An `i64`.
    I64,
    /// An `i128`.
    I128,
    /// An `isize`. The answer is the whole 64-bit number on every machine.
    Isize,
    /// A `u8`.
    U8,
    /// A `u16`.
    U16,
    /// A `u32`.
    U32,
    /// A `u64`.
    U64,
    /// A `u128`.
    U128,
    /// A `usize`. The answer is the whole 64-bit number on every machine.
    Usize,
    /// A `bool`.
    Bool,
}

/// A range of an integer type: its low bound and its high bound.
#[derive(Clone, Copy, Debug, PartialEq, Eq)]
pub enum Span {
    /// A range of `i8`.
    I8(Bound<i8>, Bound<i8>),
    /// A range of `i16`.
    I16(Bound<i16>, Bound<i16>),
    /// A range of `i32`.
    I32(Bound<i32>, Bound<i32>),
    /// A range of `i64`.
    I64(Bound<i64>, Bound<i64>),
    /// A range of `isize`.
    Isize(Bound<isize>, Bound<isize>),
    /// A range of `u8`.
    U8(Bound<u8>, Bound<u8>),
    /// A range of `u16`.
    U16(Bound<u16>, Bound<u16>),
    /// A range of `u32`.
    U32(Bound<u32>, Bound<u32>),
    /// A range of `u64`.
    U64(Bound<u64>, Bound<u64>),
    /// A range of `usize`.
    Usize(Bound<usize>, Bound<usize>),
}

/// A call of a method of a generator.
#[derive(Clone, Copy, Debug, PartialEq, Eq)]
pub enum Call {
    /// Draws a value of a type, as `Rng::generate` does.
    Gen(Kind),
    /// Draws a number from a range, as `Rng::generate_range` does.
    Range(Span),
    /// Shuffles the items, as `Rng::shuffle` does.
    Shuffle,
}

/// The answer to a call.
#[derive(Clone, Copy, Debug, PartialEq, Eq)]
pub enum Answer {
    /// A value or a number of an unsigned type.
    Unsigned(u128),
    /// A value or a number of a signed type.
    Signed(i128),
    /// A `bool`.
    Truth(bool),
    /// The range is empty, and nothing was drawn.
    Empty,
    /// 128 words (random integers of the type's width) in a row were rejected, for a number or for
    /// one index of a shuffle. They stay consumed.
    Exhausted,
    /// The items were shuffled.
    Shuffled,
}

/// Makes the calls in order on the generator, and writes one answer for each.
///
/// The list of calls and the items may be empty. A call that fails is answered by `Empty` or
/// `Exhausted`, and the replay continues with the next call. The replay itself always succeeds, and
/// nothing is allocated. Equal generators, items and calls produce equal answers, items and
/// generators.
///
/// # Panics
///
/// Panics if `answers` and `calls` differ in length.
///
/// # Examples
///
/// ```
/// use nanorand_proved::replay::{replay, Answer, Call, Kind, Span};
/// use nanorand_proved::WyRand;
/// use std::ops::Bound::{Excluded, Included};
///
/// let calls = [
///     Call::Gen(Kind::U64),
///     Call::Range(Span::U8(Included(10), Included(12))),
///     Call::Range(Span::I32(Included(0), Excluded(0))),
///     Call::Shuffle,
/// ];
/// let (mut items, mut answers) = ([7, 8, 9], [Answer::Empty; 4]);
/// replay(&mut WyRand::seed_from_u64(42), &calls, &mut items, &mut answers);
/// let [first, second] = [6_327_169_416_285_365_978, 11].map(Answer::Unsigned);
/// assert_eq!(answers, [first, second, Answer::Empty, Answer::Shuffled]);
/// assert_eq!(items, [8, 7, 9]);
/// ```
#[track_caller]
pub fn replay<G: Rng<OUTPUT>, const OUTPUT: usize>(
    rng: &mut G,
    calls: &[Call],
    items: &mut [u64],
    answers: &mut [Answer],
) {
    assert!(
        answers.len() == calls.len(),
        "`answers` must be as long as `calls`"
    );

    for (place, call) in calls.iter().enumerate() {
        answers[place] = make_call(rng, call, items);
    }
}

fn make_call<G: Rng<OUTPUT>, const OUTPUT: usize>(
    rng: &mut G,
    call: &Call,
    items: &mut [u64],
) -> Answer {
    match call {
        Call::Gen(kind) => draw(rng, *kind),
        Call::Range(span) => draw_within(rng, span),
        Call::Shuffle => match rng.shuffle(items) {
            Ok(()) => Answer::Shuffled,
            Err(refusal) => refusal_answer(refusal),
        },
    }
}

fn draw<G: Rng<OUTPUT>, const OUTPUT: usize>(rng: &mut G, kind: Kind) -> Answer {
    match kind {
        Kind::I8 => Answer::Signed(i128::from(i8::random(rng))),
        Kind::I16 => Answer::Signed(i128::from(i16::random(rng))),
        Kind::I32 => Answer::Signed(i128::from(i32::random(rng))),
        Kind::I64 => Answer::Signed(i128::from(i64::random(rng))),
        Kind::I128 => Answer::Signed(i128::random(rng)),
        Kind::Isize => Answer::Signed(i128::from(i64::random(rng))),
        Kind::U8 => Answer::Unsigned(u128::from(u8::random(rng))),
        Kind::U16 => Answer::Unsigned(u128::from(u16::random(rng))),
        Kind::U32 => Answer::Unsigned(u128::from(u32::random(rng))),
        Kind::U64 => Answer::Unsigned(u128::from(u64::random(rng))),
        Kind::U128 => Answer::Unsigned(u128::random(rng)),
        Kind::Usize => Answer::Unsigned(u128::from(u64::random(rng))),
        Kind::Bool => Answer::Truth(bool::random(rng)),
    }
}

fn draw_within<G: Rng<OUTPUT>, const OUTPUT: usize>(rng: &mut G, span: &Span) -> Answer {
    match span {
        Span::I8(low, high) => signed_answer(i8::random_range(rng, *low, *high).map(i128::from)),
        Span::I16(low, high) => signed_answer(i16::random_range(rng, *low, *high).map(i128::from)),
        Span::I32(low, high) => signed_answer(i32::random_range(rng, *low, *high).map(i128::from)),
        Span::I64(low, high) => signed_answer(i64::random_range(rng, *low, *high).map(i128::from)),
        Span::Isize(low, high) => {
            signed_answer(isize::random_range(rng, *low, *high).map(|number| number as i128))
        }
        Span::U8(low, high) => unsigned_answer(u8::random_range(rng, *low, *high).map(u128::from)),
        Span::U16(low, high) => {
            unsigned_answer(u16::random_range(rng, *low, *high).map(u128::from))
        }
        Span::U32(low, high) => {
            unsigned_answer(u32::random_range(rng, *low, *high).map(u128::from))
        }
        Span::U64(low, high) => {
            unsigned_answer(u64::random_range(rng, *low, *high).map(u128::from))
        }
        Span::Usize(low, high) => {
            unsigned_answer(usize::random_range(rng, *low, *high).map(|number| number as u128))
        }
    }
}

fn unsigned_answer(drawn: Result<u128, RangeError>) -> Answer {
    match drawn {
        Ok(number) => Answer::Unsigned(number),
        Err(refusal) => refusal_answer(refusal),
    }
}

fn signed_answer(drawn: Result<i128, RangeError>) -> Answer {
    match drawn {
        Ok(number) => Answer::Signed(number),
        Err(refusal) => refusal_answer(refusal),
    }
}

fn refusal_answer(refusal: RangeError) -> Answer {
    match refusal {
        RangeError::Empty => Answer::Empty,
        RangeError::Exhausted => Answer::Exhausted,
    }
}
