//! Calls on generators whose blocks are known: the answer to each call, and what all calls leave.
//! Each case is run twice: as a replay, and by the generator's own methods in turn.

use crate::common::{Steps, Waste};
use nanorand_proved::replay::Answer::{self, Empty, Exhausted, Shuffled, Signed, Truth, Unsigned};
use nanorand_proved::replay::Call::{self, Gen, Range, Shuffle};
use nanorand_proved::replay::Kind::{
    Bool, Isize, Usize, I128, I16, I32, I64, I8, U128, U16, U32, U64, U8,
};
use nanorand_proved::replay::{replay, Span};
use nanorand_proved::{BufferedRng, RangeError, Rng};
use std::fmt::Debug;
use std::ops::Bound::{Excluded, Included, Unbounded};

/// Words of 0, then these words, and then words of 0 again.
struct Words {
    zeros: u64,
    list: &'static [u64],
    drawn: u64,
}

impl Rng<8> for Words {
    fn rand(&mut self) -> [u8; 8] {
        let place = self.drawn.checked_sub(self.zeros);
        let place = place.and_then(|place| usize::try_from(place).ok());
        self.drawn += 1;
        let word = place.and_then(|place| self.list.get(place));
        word.map_or([0; 8], |word| word.to_le_bytes())
    }
}

/// The generator of a case, which is always a new one.
enum Source {
    Steps,
    Waste,
    /// This many words of 0, then these words.
    Words(u64, &'static [u64]),
}

/// Calls on a generator, their answers, and what they leave.
struct Case {
    name: &'static str,
    source: Source,
    calls: &'static [Call],
    answers: &'static [Answer],
    /// What becomes of the items 7, 8, 9, ..
    items: &'static [u64],
    /// The number of blocks drawn, and for a buffer around the generator the number of bytes that
    /// it holds.
    drawn: u64,
    buffered: Option<usize>,
}

const ALL_ONES: u64 = 0xffff_ffff_ffff_ffff;

const CASES: [Case; 31] = [
    Case {
        name: "each call",
        source: Source::Steps,
        calls: &[
            Gen(I8),
            Gen(I16),
            Gen(I32),
            Gen(I64),
            Gen(I128),
            Gen(Isize),
            Gen(U8),
            Gen(U16),
            Gen(U32),
            Gen(U64),
            Gen(U128),
            Gen(Usize),
            Gen(Bool),
            Range(Span::U8(Included(10), Included(12))),
            Range(Span::U16(Unbounded, Unbounded)),
            Range(Span::U32(Included(1), Included(1))),
            Range(Span::U64(Included(2), Unbounded)),
            Range(Span::Usize(Excluded(2), Excluded(4))),
            Range(Span::I8(Included(-1), Included(1))),
            Range(Span::I16(Unbounded, Unbounded)),
            Range(Span::I32(Included(-1), Included(-1))),
            Range(Span::I64(Included(2), Excluded(2))),
            Range(Span::Isize(Excluded(-2), Excluded(3))),
            Shuffle,
        ],
        answers: &[
            Signed(0),
            Signed(0x0908),
            Signed(0x1312_1110),
            Signed(0x1f1e_1d1c_1b1a_1918),
            Signed(0x2f2e_2d2c_2b2a_2928_2726_2524_2322_2120),
            Signed(0x3736_3534_3332_3130),
            Unsigned(0x38),
            Unsigned(0x4140),
            Unsigned(0x4b4a_4948),
            Unsigned(0x5756_5554_5352_5150),
            Unsigned(0x6766_6564_6362_6160_5f5e_5d5c_5b5a_5958),
            Unsigned(0x6f6e_6d6c_6b6a_6968),
            Truth(true),
            Unsigned(11),
            Unsigned(0x8180),
            Unsigned(1),
            Unsigned(0x9796_9594_9392_9190),
            Unsigned(3),
            Signed(0),
            Signed(0x29a8),
            Signed(-1),
            Empty,
            Signed(1),
            Shuffled,
        ],
        items: &[9, 7, 8],
        drawn: 27,
        buffered: None,
    },
    Case {
        name: "three values",
        source: Source::Steps,
        calls: &[Gen(U8), Gen(U8), Gen(U16)],
        answers: &[Unsigned(0), Unsigned(8), Unsigned(0x1110)],
        items: &[],
        drawn: 3,
        buffered: None,
    },
    Case {
        name: "three values of a buffer",
        source: Source::Steps,
        calls: &[Gen(U8), Gen(U8), Gen(U16)],
        answers: &[Unsigned(0), Unsigned(1), Unsigned(0x0302)],
        items: &[],
        drawn: 1,
        buffered: Some(4),
    },
    Case {
        name: "three values of a buffer and one of two blocks",
        source: Source::Steps,
        calls: &[Gen(U8), Gen(U8), Gen(U16), Gen(U64)],
        answers: &[
            Unsigned(0),
            Unsigned(1),
            Unsigned(0x0302),
            Unsigned(0x0b0a_0908_0706_0504),
        ],
        items: &[],
        drawn: 2,
        buffered: Some(4),
    },
    Case {
        name: "a value of two blocks",
        source: Source::Steps,
        calls: &[Gen(U128)],
        answers: &[Unsigned(0x0f0e_0d0c_0b0a_0908_0706_0504_0302_0100)],
        items: &[],
        drawn: 2,
        buffered: None,
    },
    Case {
        name: "wasted blocks",
        source: Source::Waste,
        calls: &[Gen(U8), Gen(U64), Gen(U8)],
        answers: &[Unsigned(0), Unsigned(0x1716_1514_1312_1110), Unsigned(24)],
        items: &[],
        drawn: 5,
        buffered: None,
    },
    Case {
        name: "a buffer wastes no blocks",
        source: Source::Waste,
        calls: &[Gen(U8), Gen(U8)],
        answers: &[Unsigned(0), Unsigned(1)],
        items: &[],
        drawn: 1,
        buffered: Some(6),
    },
    Case {
        name: "a rejected word",
        source: Source::Steps,
        calls: &[Range(Span::U8(Included(10), Included(12)))],
        answers: &[Unsigned(10)],
        items: &[],
        drawn: 2,
        buffered: None,
    },
    Case {
        name: "no word is rejected",
        source: Source::Words(0, &[]),
        calls: &[Range(Span::U8(Included(10), Included(13)))],
        answers: &[Unsigned(10)],
        items: &[],
        drawn: 1,
        buffered: None,
    },
    Case {
        name: "the last of 128 words",
        source: Source::Words(127, &[1]),
        calls: &[Range(Span::U8(Included(10), Included(12)))],
        answers: &[Unsigned(10)],
        items: &[],
        drawn: 128,
        buffered: None,
    },
    Case {
        name: "zeros alone",
        source: Source::Words(0, &[]),
        calls: &[Range(Span::U8(Included(10), Included(12)))],
        answers: &[Exhausted],
        items: &[],
        drawn: 128,
        buffered: None,
    },
    Case {
        name: "128 rejected words",
        source: Source::Words(128, &[1]),
        calls: &[
            Range(Span::U8(Included(10), Included(12))),
            Range(Span::U8(Included(10), Included(12))),
        ],
        answers: &[Exhausted, Unsigned(10)],
        items: &[],
        drawn: 129,
        buffered: None,
    },
    Case {
        name: "128 rejected words and a value",
        source: Source::Words(128, &[1]),
        calls: &[Range(Span::U8(Included(10), Included(12))), Gen(U8)],
        answers: &[Exhausted, Unsigned(1)],
        items: &[],
        drawn: 129,
        buffered: None,
    },
    Case {
        name: "128 rejected words of a buffer and a value",
        source: Source::Words(128, &[1]),
        calls: &[Range(Span::U8(Included(10), Included(12))), Gen(U8)],
        answers: &[Exhausted, Unsigned(0)],
        items: &[],
        drawn: 17,
        buffered: Some(7),
    },
    Case {
        name: "whole types by the greatest word",
        source: Source::Words(0, &[ALL_ONES, ALL_ONES]),
        calls: &[
            Range(Span::U8(Unbounded, Unbounded)),
            Range(Span::I8(Unbounded, Unbounded)),
        ],
        answers: &[Unsigned(255), Signed(127)],
        items: &[],
        drawn: 2,
        buffered: None,
    },
    Case {
        name: "a whole type",
        source: Source::Words(0, &[0, 128, 255]),
        calls: &[
            Range(Span::I8(Unbounded, Unbounded)),
            Range(Span::I8(Unbounded, Unbounded)),
            Range(Span::I8(Unbounded, Unbounded)),
        ],
        answers: &[Signed(-128), Signed(0), Signed(127)],
        items: &[],
        drawn: 3,
        buffered: None,
    },
    Case {
        name: "empty ranges draw nothing",
        source: Source::Steps,
        calls: &[
            Range(Span::U8(Included(5), Excluded(5))),
            Range(Span::U8(Included(10), Included(9))),
            Range(Span::U8(Included(10), Included(5))),
            Range(Span::U8(Excluded(255), Unbounded)),
            Range(Span::I8(Included(-128), Excluded(-128))),
            Range(Span::I8(Excluded(5), Excluded(6))),
            Range(Span::I8(Excluded(127), Unbounded)),
            Range(Span::I8(Unbounded, Excluded(-128))),
            Range(Span::I32(Included(10), Included(5))),
        ],
        answers: &[Empty; 9],
        items: &[],
        drawn: 0,
        buffered: None,
    },
    Case {
        name: "small signed ranges by a word of 1",
        source: Source::Words(0, &[1, 1]),
        calls: &[
            Range(Span::I8(Included(-1), Included(1))),
            Range(Span::I8(Excluded(-2), Excluded(2))),
        ],
        answers: &[Signed(-1), Signed(-1)],
        items: &[],
        drawn: 2,
        buffered: None,
    },
    Case {
        name: "all numbers but the least",
        source: Source::Words(0, &[0, 1]),
        calls: &[Range(Span::I8(Excluded(-128), Unbounded))],
        answers: &[Signed(-127)],
        items: &[],
        drawn: 2,
        buffered: None,
    },
    Case {
        name: "each word names the only number",
        source: Source::Words(0, &[0, ALL_ONES, 0, 255]),
        calls: &[
            Range(Span::U64(Included(7), Included(7))),
            Range(Span::U64(Included(7), Included(7))),
            Range(Span::I8(Excluded(5), Included(6))),
            Range(Span::I8(Excluded(5), Included(6))),
        ],
        answers: &[Unsigned(7), Unsigned(7), Signed(6), Signed(6)],
        items: &[],
        drawn: 4,
        buffered: None,
    },
    Case {
        name: "a shuffle that moves nothing",
        source: Source::Steps,
        calls: &[Shuffle],
        answers: &[Shuffled],
        items: &[7, 8, 9],
        drawn: 3,
        buffered: None,
    },
    Case {
        name: "the last item each time",
        source: Source::Words(0, &[ALL_ONES]),
        calls: &[Shuffle],
        answers: &[Shuffled],
        items: &[9, 8, 7],
        drawn: 3,
        buffered: None,
    },
    Case {
        name: "the middle item and the next one",
        source: Source::Words(0, &[0x8080_8080_8080_8080, 0x0101_0101_0101_0101, ALL_ONES]),
        calls: &[Shuffle],
        answers: &[Shuffled],
        items: &[8, 7, 9],
        drawn: 3,
        buffered: None,
    },
    Case {
        name: "nothing to shuffle",
        source: Source::Words(0, &[]),
        calls: &[Shuffle],
        answers: &[Shuffled],
        items: &[],
        drawn: 0,
        buffered: None,
    },
    Case {
        name: "a shuffle that is refused",
        source: Source::Words(0, &[]),
        calls: &[Shuffle, Gen(Bool)],
        answers: &[Exhausted, Truth(true)],
        items: &[7, 8, 9],
        drawn: 129,
        buffered: None,
    },
    Case {
        name: "a shuffle of a buffer that is refused",
        source: Source::Words(0, &[]),
        calls: &[Shuffle, Gen(Bool)],
        answers: &[Exhausted, Truth(true)],
        items: &[7, 8, 9],
        drawn: 129,
        buffered: Some(7),
    },
    Case {
        name: "four kinds of calls",
        source: Source::Steps,
        calls: &[
            Gen(U8),
            Range(Span::U8(Included(10), Included(12))),
            Shuffle,
            Gen(Bool),
        ],
        answers: &[Unsigned(0), Unsigned(10), Shuffled, Truth(true)],
        items: &[7, 8, 9],
        drawn: 6,
        buffered: None,
    },
    Case {
        name: "four kinds of calls of a buffer",
        source: Source::Steps,
        calls: &[
            Gen(U8),
            Range(Span::U8(Included(10), Included(12))),
            Shuffle,
            Gen(Bool),
        ],
        answers: &[Unsigned(0), Unsigned(10), Shuffled, Truth(true)],
        items: &[7, 8, 9],
        drawn: 4,
        buffered: Some(5),
    },
    Case {
        name: "a byte at the limit of truth",
        source: Source::Words(0, &[127, 128]),
        calls: &[Gen(Bool), Gen(Bool)],
        answers: &[Truth(true), Truth(false)],
        items: &[],
        drawn: 2,
        buffered: None,
    },
    Case {
        name: "no calls",
        source: Source::Steps,
        calls: &[],
        answers: &[],
        items: &[7],
        drawn: 0,
        buffered: None,
    },
    Case {
        name: "no calls of a buffer",
        source: Source::Steps,
        calls: &[],
        answers: &[],
        items: &[7],
        drawn: 0,
        buffered: Some(0),
    },
];

fn refusal(error: RangeError) -> Answer {
    match error {
        RangeError::Empty => Empty,
        RangeError::Exhausted => Exhausted,
    }
}

fn unsigned<T: Into<u128>>(drawn: Result<T, RangeError>) -> Answer {
    drawn.map_or_else(refusal, |number| Unsigned(number.into()))
}

fn signed<T: Into<i128>>(drawn: Result<T, RangeError>) -> Answer {
    drawn.map_or_else(refusal, |number| Signed(number.into()))
}

fn wide<T: TryInto<W>, W>(number: T) -> W
where
    T::Error: Debug,
{
    number.try_into().expect("a wider type")
}

/// Makes the call by the generator's own method.
fn by_method<G: Rng<OUTPUT>, const OUTPUT: usize>(
    rng: &mut G,
    call: &Call,
    items: &mut [u64],
) -> Answer {
    match call {
        Gen(I8) => Signed(i128::from(rng.generate::<i8>())),
        Gen(I16) => Signed(i128::from(rng.generate::<i16>())),
        Gen(I32) => Signed(i128::from(rng.generate::<i32>())),
        Gen(I64) => Signed(i128::from(rng.generate::<i64>())),
        Gen(I128) => Signed(rng.generate()),
        Gen(Isize) => Signed(wide(rng.generate::<isize>())),
        Gen(U8) => Unsigned(u128::from(rng.generate::<u8>())),
        Gen(U16) => Unsigned(u128::from(rng.generate::<u16>())),
        Gen(U32) => Unsigned(u128::from(rng.generate::<u32>())),
        Gen(U64) => Unsigned(u128::from(rng.generate::<u64>())),
        Gen(U128) => Unsigned(rng.generate()),
        Gen(Usize) => Unsigned(wide(rng.generate::<usize>())),
        Gen(Bool) => Truth(rng.generate()),
        Range(Span::I8(low, high)) => signed(rng.generate_range((*low, *high))),
        Range(Span::I16(low, high)) => signed(rng.generate_range((*low, *high))),
        Range(Span::I32(low, high)) => signed(rng.generate_range((*low, *high))),
        Range(Span::I64(low, high)) => signed(rng.generate_range((*low, *high))),
        Range(Span::Isize(low, high)) => {
            signed(rng.generate_range((*low, *high)).map(wide::<isize, i128>))
        }
        Range(Span::U8(low, high)) => unsigned(rng.generate_range((*low, *high))),
        Range(Span::U16(low, high)) => unsigned(rng.generate_range((*low, *high))),
        Range(Span::U32(low, high)) => unsigned(rng.generate_range((*low, *high))),
        Range(Span::U64(low, high)) => unsigned(rng.generate_range((*low, *high))),
        Range(Span::Usize(low, high)) => {
            unsigned(rng.generate_range((*low, *high)).map(wide::<usize, u128>))
        }
        Shuffle => rng.shuffle(items).map_or_else(refusal, |()| Shuffled),
    }
}

/// The calls of the case have its answers and leave its items.
fn answers_so<G: Rng<OUTPUT>, const OUTPUT: usize>(rng: &mut G, case: &Case, is_replayed: bool) {
    let mut items: Vec<u64> = (7..).take(case.items.len()).collect();
    let mut answers = vec![Empty; case.calls.len()];
    if is_replayed {
        replay(rng, case.calls, &mut items, &mut answers);
    } else {
        for (answer, call) in answers.iter_mut().zip(case.calls) {
            *answer = by_method(rng, call, &mut items);
        }
    }
    assert_eq!(answers, case.answers, "{}", case.name);
    assert_eq!(items, case.items, "{}", case.name);
}

/// Does the same with a buffer around the generator if the case has one, and compares how many
/// blocks are drawn.
fn leaves<G: Rng<8>>(mut rng: G, drawn: impl Fn(&G) -> u64, case: &Case, is_replayed: bool) {
    let blocks = if let Some(buffered) = case.buffered {
        let mut buffer = BufferedRng::new(rng);
        answers_so(&mut buffer, case, is_replayed);
        assert_eq!(buffer.buffered(), buffered, "{}", case.name);
        drawn(buffer.inner())
    } else {
        answers_so(&mut rng, case, is_replayed);
        drawn(&rng)
    };
    assert_eq!(blocks, case.drawn, "{}", case.name);
}

#[test]
fn calls() {
    for (case, is_replayed) in CASES.iter().flat_map(|case| [(case, true), (case, false)]) {
        match case.source {
            Source::Steps => leaves(Steps::new(), Steps::drawn, case, is_replayed),
            Source::Waste => leaves(Waste::new(), Waste::drawn, case, is_replayed),
            Source::Words(zeros, words) => {
                let rng = Words {
                    zeros,
                    list: words,
                    drawn: 0,
                };
                leaves(rng, |rng| rng.drawn, case, is_replayed);
            }
        }
    }
}
