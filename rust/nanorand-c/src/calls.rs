//! The thirteen functions that every generator has, and the function of parts: their bodies, and
//! the macros that export them for a generator.

use crate::boundary::arrays;
use nanorand_proved::values::number::Number;
use nanorand_proved::values::pick_word;
use nanorand_proved::{choices, samples, shuffles, Parts, PastPeriod, RangeError, Rng};

/// The statuses of C; the header says what each means.
const OK: u32 = 0;
const EMPTY: u32 = 1;
const EXHAUSTED: u32 = 2;
const PAST_PERIOD: u32 = 3;

/// The greatest number of words that are drawn for one number.
const MAX_WORDS: u32 = 128;

/// C memory that holds the state of a generator.
pub trait State<const OUTPUT: usize> {
    /// The generator that draws from this state.
    type Generator: Rng<OUTPUT>;

    /// Runs a closure on the generator in this state, and stores the state that it leaves.
    fn call<T>(&mut self, call: impl FnOnce(&mut Self::Generator) -> T) -> T;
}

fn status(outcome: Result<(), RangeError>) -> u32 {
    match outcome {
        Ok(()) => OK,
        Err(RangeError::Empty) => EMPTY,
        Err(RangeError::Exhausted) => EXHAUSTED,
    }
}

pub fn u64<S: State<N>, const N: usize>(state: &mut S) -> u64 {
    state.call(Rng::generate)
}

pub fn fill_bytes<S: State<N>, const N: usize>(state: &mut S, buffer: &mut [u8]) {
    state.call(|rng| rng.fill_bytes(buffer));
}

/// Returns a number in [0, 1): the top 53 bits of the next 64-bit word, times 2^-53.
///
/// `f64::random` of `nanorand_proved` returns the same number, but converts it as a signed number,
/// so that LLVM does not vectorize loops of draws. A single call has no loop.
#[allow(clippy::cast_precision_loss)] // 53 bits, as many as an `f64` has
pub fn f64<S: State<N>, const N: usize>(state: &mut S) -> f64 {
    (u64(state) >> 11) as f64 / 9_007_199_254_740_992.0
}

/// Returns the number that `range` draws from 0 to n - 1. Returns n if there is none: for n = 0,
/// where nothing is drawn, and if 128 words in a row were rejected.
pub fn below<S: State<N>, const N: usize>(state: &mut S, n: u64) -> u64 {
    if n == 0 {
        empty(state);
        return 0;
    }
    let word = word(state, 64);
    at_once(n - 1, 64, word).unwrap_or_else(|error| searched_below(state, n, error))
}

#[cold]
#[inline(never)]
fn searched_below<S: State<N>, const N: usize>(state: &mut S, n: u64, error: u64) -> u64 {
    let mut number = n;
    searched(state, 0_u64, n - 1, &mut number, error);
    number
}

/// A type of numbers that has ranges in C. Its words have 32 or 64 bits.
pub trait Ranged: Number + PartialOrd {
    /// Returns how many numbers this one is below a greater one.
    fn below(self, last: Self) -> u64;

    /// Returns the number that is this many above.
    fn above(self, ahead: u64) -> Self;
}

/// The methods are also right for a signed type: there the subtraction and the addition may wrap.
macro_rules! ranged {
    ($($number:ty)*) => {
        $(
            #[allow(
                clippy::cast_lossless,
                clippy::cast_possible_truncation,
                clippy::cast_possible_wrap,
                clippy::cast_sign_loss
            )]
            impl Ranged for $number {
                #[inline]
                fn below(self, last: Self) -> u64 {
                    last.wrapping_sub(self) as u64
                }

                #[inline]
                fn above(self, ahead: u64) -> Self {
                    self.wrapping_add(ahead as Self)
                }
            }
        )*
    };
}

ranged!(u32 u64 usize i64);

/// Draws a number from `first` to `last`, as `generate_range` of `nanorand_proved` does.
///
/// Here, only the first word is tested, without a division and without the case of 2^64 numbers, so
/// that a call needs few instructions and saves no register. Few calls need more than that.
pub fn range<T, S, const N: usize>(state: &mut S, first: T, last: T, number: &mut T) -> u32
where
    T: Ranged,
    S: State<N>,
{
    if last < first {
        return empty(state);
    }
    let (most, word) = (first.below(last), word(state, T::BITS));
    match at_once(most, T::BITS, word) {
        Ok(ahead) => {
            *number = first.above(ahead);
            OK
        }
        Err(error) => searched(state, first, most, number, error),
    }
}

/// Draws nothing. It is cold, so that its code is apart from that of the calls that draw a number.
/// Like every call, it stores the state: that of a stream may have too high a count of buffered
/// bytes, which is clamped.
#[cold]
fn empty<S: State<N>, const N: usize>(state: &mut S) -> u32 {
    state.call(|_| EMPTY)
}

/// Draws the next word of 32 or 64 bits, by one request.
#[inline(always)]
#[allow(clippy::inline_always)]
fn word<S: State<N>, const N: usize>(state: &mut S, bits: u32) -> u64 {
    if bits == 32 {
        u64::from(state.call(Rng::generate::<u32>))
    } else {
        state.call(Rng::generate::<u64>)
    }
}

/// Returns the number from 0 to `last` that `pick_word` maps a word to, or an error if the word may
/// be rejected. The number is the high half of the product of the word and the size, which is
/// `last` + 1. Fewer words than the size are rejected, those with the least low halves.
///
/// The error is what `searched` needs: the word or, for a word of 32 bits, the product, so that the
/// usual path does not have to keep the word as well.
#[inline(always)]
#[allow(clippy::cast_possible_truncation, clippy::inline_always)]
fn at_once(last: u64, bits: u32, word: u64) -> Result<u64, u64> {
    let size = last.wrapping_add(1);
    if bits == 32 {
        // The low half of the size 2^32 is 0, so each word is accepted.
        let product = word.wrapping_mul(size);
        if product as u32 >= size as u32 {
            Ok(product >> 32)
        } else {
            Err(product)
        }
    } else {
        // The size 2^64 wraps around to 0, but no low half is above its `last`.
        let product = u128::from(word) * u128::from(size);
        if product as u64 > last {
            Ok((product >> 64) as u64)
        } else {
            Err(word)
        }
    }
}

/// Tests the first word, given as the error of `at_once`, and up to 127 more. Writes the number of
/// the first word that is not rejected: one of the `most` + 1 numbers from `first` on.
#[cold]
#[inline(never)]
fn searched<T, S, const N: usize>(
    state: &mut S,
    first: T,
    most: u64,
    number: &mut T,
    error: u64,
) -> u32
where
    T: Ranged,
    S: State<N>,
{
    let size = u128::from(most) + 1;
    let first_word = if T::BITS == 32 {
        error / (most + 1)
    } else {
        error
    };
    let mut ahead = pick_word(size, T::BITS, first_word);
    let mut drawn = 1;
    while ahead.is_none() && drawn < MAX_WORDS {
        ahead = pick_word(size, T::BITS, word(state, T::BITS));
        drawn += 1;
    }
    match ahead {
        Some(ahead) => {
            *number = first.above(ahead);
            OK
        }
        None => EXHAUSTED,
    }
}

pub fn shuffle<S: State<N>, const N: usize>(state: &mut S, items: &mut [usize]) -> u32 {
    status(state.call(|rng| rng.shuffle(items)))
}

/// Shuffles items of `size` bytes each, by the draws of `shuffle` for as many items. The bytes
/// after the last whole item stay. If `size` is 0, there are no items, and nothing is drawn.
///
/// Items of the sizes of numbers are shuffled as fast as an array of numbers.
pub fn shuffle_bytes<S: State<N>, const N: usize>(
    state: &mut S,
    items: &mut [u8],
    size: usize,
) -> u32 {
    status(state.call(|rng| match size {
        0 => Ok(()),
        1 => rng.shuffle(items),
        2 => rng.shuffle(arrays::<2>(items)),
        4 => rng.shuffle(arrays::<4>(items)),
        8 => rng.shuffle(arrays::<8>(items)),
        16 => rng.shuffle(arrays::<16>(items)),
        _ => shuffle_swapping(rng, items, size),
    }))
}

fn shuffle_swapping<G: Rng<N>, const N: usize>(
    rng: &mut G,
    items: &mut [u8],
    size: usize,
) -> Result<(), RangeError> {
    let count = items.len() / size;
    for place in 0..count {
        let ahead = choices::below(rng, count - place)?;
        swap_items(items, size, place, place + ahead);
    }
    Ok(())
}

/// Swaps two items of `size` bytes each, whose indices are `place` and `other`, which is not less.
fn swap_items(items: &mut [u8], size: usize, place: usize, other: usize) {
    if place < other {
        let (front, back) = items.split_at_mut(other * size);
        front[place * size..][..size].swap_with_slice(&mut back[..size]);
    }
}

pub fn shuffle_full<S: State<N>, const N: usize>(state: &mut S, items: &mut [usize]) -> u32 {
    status(state.call(|rng| shuffles::shuffle_full(rng, items)))
}

pub fn sample<S: State<N>, const N: usize>(
    state: &mut S,
    count: usize,
    places: &mut [usize],
) -> u32 {
    status(state.call(|rng| {
        if count < places.len() {
            Err(RangeError::Empty)
        } else {
            rng.sample(count, places)
        }
    }))
}

/// Fills the places after the first `filled` ones. Returns `NANORAND_EMPTY`, and draws nothing, if
/// there are more places than numbers, or if `filled` exceeds the number of places.
pub fn extend_sample<S: State<N>, const N: usize>(
    state: &mut S,
    count: usize,
    places: &mut [usize],
    filled: usize,
    table: &mut [usize],
) -> u32 {
    status(state.call(|rng| {
        if count < places.len() || places.len() < filled {
            Err(RangeError::Empty)
        } else {
            samples::extend_sample(rng, count, places, filled, table)
        }
    }))
}

/// Moves the state to the beginning of the part and returns `NANORAND_OK`. Returns
/// `NANORAND_PAST_PERIOD`, and changes nothing, if the part ends beyond the period.
pub fn part<S, const N: usize>(state: &mut S, index: u64, draws: u64) -> u32
where
    S: State<N>,
    S::Generator: Parts<N>,
{
    match state.call(|rng| rng.part(index, draws).map(|part| *rng = part)) {
        Ok(()) => OK,
        Err(PastPeriod) => PAST_PERIOD,
    }
}

/// Exports the thirteen functions of a generator, given its name in C and the type of its state.
/// They are in a block of their own, since the functions of the next generator have the same names.
macro_rules! export_calls {
    ($generator:literal, $state:ty) => {
        const _: () = {
            use crate::boundary::ArrayMut;
            use crate::calls;

            #[export_name = concat!("nanorand_v1_", $generator, "_u64")]
            extern "C" fn u64(state: &mut $state) -> u64 {
                calls::u64(state)
            }

            #[export_name = concat!("nanorand_v1_", $generator, "_fill_bytes")]
            extern "C" fn fill_bytes(state: &mut $state, buffer: ArrayMut<u8>, length: usize) {
                calls::fill_bytes(state, buffer.items(length));
            }

            #[export_name = concat!("nanorand_v1_", $generator, "_f64")]
            extern "C" fn f64(state: &mut $state) -> f64 {
                calls::f64(state)
            }

            #[export_name = concat!("nanorand_v1_", $generator, "_below")]
            extern "C" fn below(state: &mut $state, n: u64) -> u64 {
                calls::below(state, n)
            }

            #[export_name = concat!("nanorand_v1_", $generator, "_range_u32")]
            extern "C" fn range_u32(
                state: &mut $state,
                first: u32,
                last: u32,
                number: &mut u32,
            ) -> u32 {
                calls::range(state, first, last, number)
            }

            #[export_name = concat!("nanorand_v1_", $generator, "_range_u64")]
            extern "C" fn range_u64(
                state: &mut $state,
                first: u64,
                last: u64,
                number: &mut u64,
            ) -> u32 {
                calls::range(state, first, last, number)
            }

            #[export_name = concat!("nanorand_v1_", $generator, "_range_i64")]
            extern "C" fn range_i64(
                state: &mut $state,
                first: i64,
                last: i64,
                number: &mut i64,
            ) -> u32 {
                calls::range(state, first, last, number)
            }

            #[export_name = concat!("nanorand_v1_", $generator, "_range_usize")]
            extern "C" fn range_usize(
                state: &mut $state,
                first: usize,
                last: usize,
                number: &mut usize,
            ) -> u32 {
                calls::range(state, first, last, number)
            }

            #[export_name = concat!("nanorand_v1_", $generator, "_shuffle")]
            extern "C" fn shuffle(
                state: &mut $state,
                items: ArrayMut<usize>,
                length: usize,
            ) -> u32 {
                calls::shuffle(state, items.items(length))
            }

            #[export_name = concat!("nanorand_v1_", $generator, "_shuffle_bytes")]
            extern "C" fn shuffle_bytes(
                state: &mut $state,
                items: ArrayMut<u8>,
                length: usize,
                size: usize,
            ) -> u32 {
                calls::shuffle_bytes(state, items.items(length), size)
            }

            #[export_name = concat!("nanorand_v1_", $generator, "_shuffle_full")]
            extern "C" fn shuffle_full(
                state: &mut $state,
                items: ArrayMut<usize>,
                length: usize,
            ) -> u32 {
                calls::shuffle_full(state, items.items(length))
            }

            #[export_name = concat!("nanorand_v1_", $generator, "_sample")]
            extern "C" fn sample(
                state: &mut $state,
                population: usize,
                places: ArrayMut<usize>,
                length: usize,
            ) -> u32 {
                calls::sample(state, population, places.items(length))
            }

            #[export_name = concat!("nanorand_v1_", $generator, "_extend_sample")]
            extern "C" fn extend_sample(
                state: &mut $state,
                population: usize,
                places: ArrayMut<usize>,
                places_length: usize,
                filled: usize,
                table: ArrayMut<usize>,
                length: usize,
            ) -> u32 {
                let (places, table) = (places.items(places_length), table.items(length));
                calls::extend_sample(state, population, places, filled, table)
            }
        };
    };
}

/// Exports the function of parts, for a generator that has it.
macro_rules! export_part {
    ($generator:literal, $state:ty) => {
        const _: () = {
            #[export_name = concat!("nanorand_v1_", $generator, "_part")]
            extern "C" fn part(state: &mut $state, index: u64, draws: u64) -> u32 {
                crate::calls::part(state, index, draws)
            }
        };
    };
}

#[cfg(test)]
mod tests {
    use super::*;
    use crate::chacha::ChaChaState;
    use crate::pcg64::Wide;
    use core::fmt::Debug;
    use nanorand_proved::{RandomRange, WyRand};

    /// A generator whose words are all 0. The word 0 is rejected for a range of three numbers.
    struct Zeros;

    impl Rng<8> for Zeros {
        fn rand(&mut self) -> [u8; 8] {
            [0; 8]
        }
    }

    impl State<8> for Zeros {
        type Generator = Zeros;

        fn call<T>(&mut self, call: impl FnOnce(&mut Zeros) -> T) -> T {
            call(self)
        }
    }

    #[test]
    fn rejected_words_have_a_status_and_write_nothing() {
        let (mut number, mut items, mut bytes) = (7, [7, 8, 9], *b"abcdefg");
        assert_eq!(range(&mut Zeros, 1_u32, 3, &mut number), 2);
        assert_eq!(shuffle(&mut Zeros, &mut items), 2);
        assert_eq!(shuffle_full(&mut Zeros, &mut items), 2);
        assert_eq!(shuffle_bytes(&mut Zeros, &mut bytes, 2), 2);
        assert_eq!(sample(&mut Zeros, 5, &mut items), 2);
        assert_eq!(extend_sample(&mut Zeros, 5, &mut items, 2, &mut [0; 9]), 2);
        assert_eq!((number, items, &bytes), (7, [7, 8, 9], b"abcdefg"));
        assert_eq!(below(&mut Zeros, 3), 3);
    }

    /// Calls a check with two equal states of a generator of each kind.
    macro_rules! for_two_of_each {
        ($check:ident) => {
            $check(WyRand::seed_from_u64(7), WyRand::seed_from_u64(7));
            $check(Wide::seed_from_u64(7), Wide::seed_from_u64(7));
            let chacha = ChaChaState::<8>::seed_from_u64;
            $check(chacha(7), chacha(7));
        };
    }

    /// A generator whose first words are 0, as many as this number. The others are 2^63 + 2^31.
    #[derive(Clone, Debug, PartialEq)]
    struct Late(u8);

    impl Rng<8> for Late {
        fn rand(&mut self) -> [u8; 8] {
            if self.0 > 0 {
                self.0 -= 1;
                [0; 8]
            } else {
                0x8000_0000_8000_0000_u64.to_le_bytes()
            }
        }
    }

    impl State<8> for Late {
        type Generator = Late;

        fn call<T>(&mut self, call: impl FnOnce(&mut Late) -> T) -> T {
            call(self)
        }
    }

    /// A range in C is that of `generate_range`, with the same words.
    fn agrees<T, S, const N: usize>(one: &mut S, other: &mut S, first: T, last: T)
    where
        T: Ranged + RandomRange<S::Generator, N> + Debug,
        S: State<N>,
    {
        let mut number = first;
        let drawn = match range(one, first, last, &mut number) {
            OK => Ok(number),
            EMPTY => Err(RangeError::Empty),
            _ => Err(RangeError::Exhausted),
        };
        let wanted = other.call(|rng| rng.generate_range(first..=last));
        assert_eq!(drawn, wanted, "{first:?}..={last:?}");
    }

    /// The same for ranges of each type: small, large and empty ones, and all numbers.
    fn all_types_agree<S: State<N>, const N: usize>(one: &mut S, other: &mut S) {
        for (first, last) in [(1, 6), (0, 2), (5, 5), (6, 5), (0, 1 << 31), (0, u32::MAX)] {
            agrees(one, other, first, last);
            agrees(one, other, u64::from(first), u64::from(last));
            agrees(one, other, first as usize, last as usize);
            agrees(one, other, -i64::from(last), -i64::from(first));
            agrees(one, other, i64::MIN + i64::from(first), i64::from(last));
        }
        agrees(one, other, 1, u64::MAX);
        agrees(one, other, 1 << 63, u64::MAX);
        agrees(one, other, 0, u64::MAX);
        agrees(one, other, i64::MIN, i64::MAX);
        agrees(one, other, i64::MAX, i64::MIN);
    }

    #[test]
    fn ranges_are_those_of_the_library() {
        fn check<S: State<N>, const N: usize>(mut one: S, mut other: S) {
            for _ in 0..50 {
                all_types_agree(&mut one, &mut other);
            }
        }
        for_two_of_each!(check);
    }

    #[test]
    fn rejected_words_are_those_of_the_library() {
        for zeros in [0, 1, 2, 127, 128, 129] {
            for last in [2, 5, 6, 1 << 31] {
                let (mut one, mut other) = (Late(zeros), Late(zeros));
                agrees(&mut one, &mut other, 0_u32, last);
                assert_eq!(one, other);
                agrees(&mut one, &mut other, 0, u64::from(last) << 32);
                assert_eq!(one, other);
                let (mut one, mut other) = (Late(zeros), Late(zeros));
                agrees(&mut one, &mut other, -1, i64::from(last));
                assert_eq!(one, other);
            }
        }
    }

    #[test]
    fn a_number_below_n_is_that_of_the_range() {
        fn check<S: State<N>, const N: usize>(mut one: S, mut other: S) {
            for n in [1, 2, 3, 6, 1 << 32, (1 << 63) + 1, u64::MAX] {
                for _ in 0..20 {
                    let mut number = 0;
                    assert_eq!(range(&mut one, 0, n - 1, &mut number), 0);
                    assert_eq!(below(&mut other, n), number);
                }
            }
        }
        for_two_of_each!(check);
    }

    #[test]
    fn nothing_is_below_0_and_nothing_is_drawn() {
        fn check<S: State<N>, const N: usize>(mut one: S, mut other: S) {
            assert_eq!(below(&mut one, 0), 0);
            assert_eq!(u64(&mut one), u64(&mut other));
        }
        for_two_of_each!(check);
    }

    #[test]
    #[allow(clippy::cast_precision_loss, clippy::float_cmp)] // 53 bits; the numbers are equal
    fn a_float_is_the_top_53_bits_of_a_word() {
        fn check<S: State<N>, const N: usize>(mut one: S, mut other: S) {
            for _ in 0..1000 {
                let (number, word) = (f64(&mut other), u64(&mut one));
                assert_eq!(number, (word >> 11) as f64 / (1_u64 << 53) as f64);
            }
            for _ in 0..1000 {
                assert_eq!(f64(&mut other), one.call(Rng::generate::<f64>));
            }
        }
        for_two_of_each!(check);
    }

    #[test]
    fn items_of_bytes_are_shuffled_as_their_indices() {
        fn check<S: State<N>, const N: usize>(mut one: S, mut other: S) {
            for (count, size) in [(0, 1), (1, 3), (2, 1), (9, 1), (9, 2), (20, 8), (5, 50)] {
                let byte = |index: usize| u8::try_from(index % 251).unwrap();
                let length = count * size + (size - 1);
                let mut bytes: Vec<u8> = (0..length).map(byte).collect();
                let mut indices: Vec<usize> = (0..count).collect();
                assert_eq!(shuffle_bytes(&mut one, &mut bytes, size), 0);
                assert_eq!(shuffle(&mut other, &mut indices), 0);
                let shuffled = indices
                    .iter()
                    .flat_map(|index| index * size..(index + 1) * size);
                let wanted: Vec<u8> = shuffled.chain(count * size..length).map(byte).collect();
                assert_eq!(bytes, wanted);
            }
            let mut bytes = *b"abc";
            assert_eq!(shuffle_bytes(&mut one, &mut bytes, 0), 0);
            assert_eq!((&bytes, u64(&mut one)), (b"abc", u64(&mut other)));
        }
        for_two_of_each!(check);
    }
}
