//! Replays of lists of calls.

use crate::common::{zeros, Constant, Script, Steps};
use nanorand_proved::replay::Answer::{Empty, Exhausted, Shuffled, Signed, Truth, Unsigned};
use nanorand_proved::replay::{replay, Answer, Call, Kind, Span};
use nanorand_proved::{BufferedRng, ChaCha8, Pcg64, Rng, WyRand};
use std::fmt::Debug;
use std::ops::Bound::{Excluded, Included, Unbounded};

const KINDS: [Kind; 13] = [
    Kind::I8,
    Kind::I16,
    Kind::I32,
    Kind::I64,
    Kind::I128,
    Kind::Isize,
    Kind::U8,
    Kind::U16,
    Kind::U32,
    Kind::U64,
    Kind::U128,
    Kind::Usize,
    Kind::Bool,
];

fn small_range() -> Call {
    Call::Range(Span::U8(Included(10), Included(12)))
}

/// The answers to the calls.
fn answers<G: Rng<OUTPUT>, const OUTPUT: usize>(
    rng: &mut G,
    calls: &[Call],
    items: &mut [u64],
) -> Vec<Answer> {
    let mut answers = vec![Empty; calls.len()];
    replay(rng, calls, items, &mut answers);
    answers
}

/// A byte, a byte of a small range, a shuffle and a `bool`.
fn four_calls() -> [Call; 4] {
    [
        Call::Gen(Kind::U8),
        small_range(),
        Call::Shuffle,
        Call::Gen(Kind::Bool),
    ]
}

#[test]
fn each_call_begins_a_block() {
    let expected = [Unsigned(0), Unsigned(10), Shuffled, Truth(true)];
    let mut steps = Steps::new();
    let mut items = [7, 8, 9];
    assert_eq!(answers(&mut steps, &four_calls(), &mut items), expected);
    assert_eq!(items, [7, 8, 9]);
    assert_eq!(steps.drawn(), 6);

    let mut buffered = BufferedRng::new(Steps::new());
    assert_eq!(answers(&mut buffered, &four_calls(), &mut items), expected);
    assert_eq!(items, [7, 8, 9]);
    assert_eq!(buffered.buffered(), 5);
    assert_eq!(buffered.into_inner().drawn(), 4);
}

#[test]
fn no_calls() {
    let mut steps = Steps::new();
    let mut items = [7];
    assert_eq!(answers(&mut steps, &[], &mut items), []);
    assert_eq!(items, [7]);
    assert_eq!(steps.drawn(), 0);
}

#[test]
fn a_refusal_does_not_end_a_replay() {
    let mut steps = Steps::new();
    let calls = [
        Call::Gen(Kind::U8),
        Call::Range(Span::U8(Included(5), Excluded(5))),
        small_range(),
        Call::Gen(Kind::Bool),
    ];
    let expected = [Unsigned(0), Empty, Unsigned(10), Truth(true)];
    assert_eq!(answers(&mut steps, &calls, &mut []), expected);
    assert_eq!(steps.drawn(), 3);
}

/// Each span has two numbers. A word of zeros selects the first, a word of ones the other.
#[test]
fn spans_of_each_kind() {
    let calls = [
        Span::I8(Excluded(2), Excluded(5)),
        Span::I16(Excluded(2), Excluded(5)),
        Span::I32(Excluded(2), Excluded(5)),
        Span::I64(Excluded(2), Excluded(5)),
        Span::Isize(Excluded(2), Excluded(5)),
        Span::U8(Excluded(2), Excluded(5)),
        Span::U16(Excluded(2), Excluded(5)),
        Span::U32(Excluded(2), Excluded(5)),
        Span::U64(Excluded(2), Excluded(5)),
        Span::Usize(Excluded(2), Excluded(5)),
    ]
    .map(Call::Range);
    for (byte, signed, unsigned) in [(0, Signed(3), Unsigned(3)), (255, Signed(4), Unsigned(4))] {
        let given = answers(&mut Constant::new(byte), &calls, &mut []);
        assert_eq!(given, [[signed; 5], [unsigned; 5]].concat());
    }
}

#[test]
fn refused_spans() {
    let mut rng = zeros();
    let calls = [
        Span::U64(Included(2), Unbounded),
        Span::I8(Included(-1), Included(1)),
        Span::Usize(Unbounded, Excluded(0)),
        Span::I64(Included(2), Excluded(2)),
    ]
    .map(Call::Range);
    let expected = [Exhausted, Exhausted, Empty, Empty];
    assert_eq!(answers(&mut rng, &calls, &mut []), expected);
    assert_eq!(rng.drawn(), 256);
}

#[test]
fn a_refused_range_and_a_byte() {
    let mut list = [0; 129];
    list[128] = 1;
    let calls = [small_range(), Call::Gen(Kind::U8)];
    let mut plain = Script::new(&list);
    assert_eq!(
        answers(&mut plain, &calls, &mut []),
        [Exhausted, Unsigned(1)]
    );
    assert_eq!(plain.drawn(), 129);

    let mut buffered = BufferedRng::new(Script::new(&list));
    let given = answers(&mut buffered, &calls, &mut []);
    assert_eq!(given, [Exhausted, Unsigned(0)]);
    assert_eq!(buffered.buffered(), 7);
    assert_eq!(buffered.into_inner().drawn(), 17);
}

#[test]
fn a_refused_shuffle_and_a_bool() {
    let calls = [Call::Shuffle, Call::Gen(Kind::Bool)];
    let expected = [Exhausted, Truth(true)];
    let mut items = [7, 8, 9];
    let mut rng = zeros();
    assert_eq!(answers(&mut rng, &calls, &mut items), expected);
    assert_eq!(items, [7, 8, 9]);
    assert_eq!(rng.drawn(), 129);

    let mut buffered = BufferedRng::new(zeros());
    assert_eq!(answers(&mut buffered, &calls, &mut items), expected);
    assert_eq!(items, [7, 8, 9]);
    assert_eq!(buffered.buffered(), 7);
    assert_eq!(buffered.into_inner().drawn(), 129);
}

/// One value of each type from zeros and from ones, and some values from rising bytes.
#[test]
fn values_of_each_kind() {
    let calls = KINDS.map(Call::Gen);
    let mut rng = zeros();
    let expected: Vec<Answer> = [Signed(0); 6]
        .into_iter()
        .chain([Unsigned(0); 6])
        .chain([Truth(true)])
        .collect();
    assert_eq!(answers(&mut rng, &calls, &mut []), expected);
    assert_eq!(rng.drawn(), 15);

    let expected = [
        Signed(-1),
        Signed(-1),
        Signed(-1),
        Signed(-1),
        Signed(-1),
        Signed(-1),
        Unsigned(0xff),
        Unsigned(0xffff),
        Unsigned(0xffff_ffff),
        Unsigned(u128::from(u64::MAX)),
        Unsigned(u128::MAX),
        Unsigned(u128::from(u64::MAX)),
        Truth(false),
    ];
    let given = answers(&mut Script::new(&[255; 15]), &calls, &mut []);
    assert_eq!(given, expected);

    let calls = [Kind::U128, Kind::I128, Kind::U32].map(Call::Gen);
    let expected = [
        Unsigned(0x0f0e_0d0c_0b0a_0908_0706_0504_0302_0100),
        Signed(0x1f1e_1d1c_1b1a_1918_1716_1514_1312_1110),
        Unsigned(0x2322_2120),
    ];
    assert_eq!(answers(&mut Steps::new(), &calls, &mut []), expected);
}

const MANY: usize = 20_000;

/// The answer to the call with this index, from the generator's own methods.
fn answer<G: Rng<OUTPUT>, const OUTPUT: usize>(
    rng: &mut G,
    index: usize,
    items: &mut [u64],
) -> Answer {
    match index % 4 {
        0 => Unsigned(u128::from(rng.generate::<u8>())),
        1 => rng
            .generate_range::<u8>(10..=12)
            .map_or(Exhausted, |number| Unsigned(u128::from(number))),
        2 => rng.shuffle(items).map_or(Exhausted, |()| Shuffled),
        _ => Truth(rng.generate()),
    }
}

/// Asserts that a replay returns the answers of the single calls, and leaves the same items and
/// generator.
fn check_many<G, const OUTPUT: usize>(mut rng: G)
where
    G: Rng<OUTPUT> + Clone + PartialEq + Debug,
{
    let mut again = rng.clone();
    let calls: Vec<Call> = (0..MANY / 4).flat_map(|_| four_calls()).collect();
    let (mut items, mut others) = ([7, 8, 9], [7, 8, 9]);
    let given = answers(&mut rng, &calls, &mut items);
    for (index, given) in given.into_iter().enumerate() {
        assert_eq!(answer(&mut again, index, &mut others), given, "{index}");
    }
    assert_eq!(items, others);
    assert_eq!(rng, again);
}

#[test]
fn replays_of_many_calls() {
    check_many(WyRand::new_seed(0));
    check_many(Pcg64::new_seed(0));
    check_many(BufferedRng::new(ChaCha8::new_key([0xff; 32], [0xff; 8])));
}
