//! Ranges of integers, and the numbers that words select.

use crate::common::{zeros, Constant, Script};
use nanorand_proved::values::pick_word;
use nanorand_proved::RangeError::{self, Empty, Exhausted};
use nanorand_proved::{RandomRange, Rng, WyRand};
use std::fmt::Debug;
use std::ops::Bound::{self, Excluded, Included, Unbounded};

#[test]
fn the_last_of_128_words_may_decide() {
    let mut bytes = [0; 129];
    bytes[127] = 1;
    let mut early = Script::new(&bytes);
    assert_eq!(early.generate_range::<u8>(10..=12), Ok(10));
    assert_eq!(early.drawn(), 128);

    let mut bytes = [0; 129];
    bytes[128] = 1;
    let mut late = Script::new(&bytes);
    assert_eq!(late.generate_range::<u8>(10..=12), Err(Exhausted));
    assert_eq!(late.drawn(), 128);
    assert_eq!(late.generate_range::<u8>(10..=12), Ok(10));
    assert_eq!(late.drawn(), 129);
}

/// The number that an 8-bit word selects, found by a search: the number k has the `quota` words
/// from ceil((256 k + rejected) / size) on.
fn named_by_counting(size: u32, word: u32) -> Option<u32> {
    let (quota, rejected) = (256 / size, 256 % size);
    (0..size).find(|k| {
        let first = (256 * k + rejected + size - 1) / size;
        (first..first + quota).contains(&word)
    })
}

/// Each size of a range of bytes, with each byte as the word.
#[test]
fn every_size_and_byte() {
    for size in 1..=256_u32 {
        let mut refused = 0;
        for byte in 0..=255_u8 {
            let high = u8::try_from(size).map_or(Unbounded, Excluded);
            let drawn = Constant::new(byte).generate_range::<u8>((Included(0), high));
            let named = named_by_counting(size, u32::from(byte));
            refused += u32::from(named.is_none());
            let expected: Result<u32, RangeError> = named.ok_or(Exhausted);
            assert_eq!(drawn.map(u32::from), expected, "{byte} of {size}");
            let picked = pick_word(u128::from(size), 8, u64::from(byte));
            assert_eq!(picked, named.map(u64::from), "{byte} of {size}");
        }
        assert_eq!(refused, 256 % size, "{size}");
    }
}

#[test]
fn words_of_64_bits() {
    for (size, word, number) in [
        ((1 << 63) + 1, 0, None),
        ((1 << 63) + 1, 1, Some(0)),
        ((1 << 63) + 1, 2, None),
        ((1 << 63) + 1, 3, Some(1)),
        ((1 << 63) + 1, u64::MAX, Some(1 << 63)),
        (1 << 64, u64::MAX, Some(u64::MAX)),
    ] {
        assert_eq!(pick_word(size, 64, word), number, "{word} of {size}");
    }
}

/// Asserts the results of a range for the least word and for the greatest.
fn gives<T: RandomRange<Constant, 8> + Copy + PartialEq + Debug>(
    low: Bound<T>,
    high: Bound<T>,
    by_least: Result<T, RangeError>,
    by_greatest: Result<T, RangeError>,
) {
    let drawn = zeros().generate_range((low, high));
    assert_eq!(drawn, by_least, "{low:?} {high:?}");
    let drawn = Constant::new(255).generate_range((low, high));
    assert_eq!(drawn, by_greatest, "{low:?} {high:?}");
}

/// The nine pairs of bounds at both ends of a type, and the ranges beyond them. The least word is
/// rejected if the range has all numbers but one.
macro_rules! check_ends {
    ($($number:ty),+) => { $({
        let (least, last) = (<$number>::MIN, <$number>::MAX);
        let (second, before) = (least + 1, last - 1);
        gives(Included(least), Included(second), Ok(least), Ok(second));
        gives(Included(least), Excluded(second), Ok(least), Ok(least));
        gives(Included(least), Unbounded, Ok(least), Ok(last));
        gives(Excluded(least), Included(second), Ok(second), Ok(second));
        gives(Excluded(least), Excluded(second), Err(Empty), Err(Empty));
        gives(Excluded(least), Unbounded, Err(Exhausted), Ok(last));
        gives(Unbounded, Included(second), Ok(least), Ok(second));
        gives(Unbounded, Excluded(second), Ok(least), Ok(least));
        gives(Unbounded, Unbounded, Ok(least), Ok(last));
        gives(Unbounded, Excluded(least), Err(Empty), Err(Empty));
        gives(Included(before), Included(last), Ok(before), Ok(last));
        gives(Included(before), Excluded(last), Ok(before), Ok(before));
        gives(Included(before), Unbounded, Ok(before), Ok(last));
        gives(Excluded(before), Included(last), Ok(last), Ok(last));
        gives(Excluded(before), Excluded(last), Err(Empty), Err(Empty));
        gives(Excluded(before), Unbounded, Ok(last), Ok(last));
        gives(Unbounded, Included(last), Ok(least), Ok(last));
        gives(Unbounded, Excluded(last), Err(Exhausted), Ok(before));
        gives(Excluded(last), Unbounded, Err(Empty), Err(Empty));
        gives(Included(last), Included(least), Err(Empty), Err(Empty));
        gives(Included(last), Included(last), Ok(last), Ok(last));
        gives(Included(least), Included(least), Ok(least), Ok(least));
    })+ };
}

#[test]
fn every_pair_of_bounds_at_both_ends() {
    check_ends!(u8, u16, u32, u64, u128, usize, i8, i16, i32, i64, i128, isize);
}

/// The first and the last number that the bounds admit.
macro_rules! admitted {
    ($number:ty, $low:ident, $high:ident) => {{
        let first = match $low {
            Included(number) => Some(number),
            Excluded(number) => number.checked_add(1),
            Unbounded => Some(<$number>::MIN),
        };
        let last = match $high {
            Included(number) => Some(number),
            Excluded(number) => number.checked_sub(1),
            Unbounded => Some(<$number>::MAX),
        };
        first.zip(last).filter(|(first, last)| first <= last)
    }};
}

/// Bounds at each power of two, at its negative, and next to these. If a range is not empty, the
/// greatest word selects its last number. The least word selects its first number if the size
/// divides the number of words; otherwise it is rejected.
macro_rules! check_bounds {
    ($($number:ident: $unsigned:ident),+) => { $({
        let mut rng = WyRand::new_seed(1);
        let powers = (0..$number::BITS).flat_map(|bit| [$number::MAX >> bit, $number::MIN >> bit]);
        let ends: Vec<$number> = powers
            .flat_map(|end| [end.wrapping_sub(1), end, end.wrapping_add(1)])
            .collect();
        for low in &ends {
            let near = [low.wrapping_sub(1), *low, low.wrapping_add(1), low.wrapping_add(2)];
            let others = [(); 2].map(|()| *rng.choose(&ends).expect("an end"));
            for high in near.iter().chain(&others) {
                for low in [Included(*low), Excluded(*low), Unbounded] {
                    for high in [Included(*high), Excluded(*high), Unbounded] {
                        let admitted = admitted!($number, low, high);
                        let by_least = admitted.map_or(Err(Empty), |(first, last)| {
                            let others = last.wrapping_sub(first) as $unsigned;
                            let divides = others == $unsigned::MAX || (others + 1).is_power_of_two();
                            if divides { Ok(first) } else { Err(Exhausted) }
                        });
                        gives(low, high, by_least, admitted.map(|(_, last)| last).ok_or(Empty));
                    }
                }
            }
        }
    })+ };
}

#[test]
#[allow(clippy::cast_sign_loss)] // the distance of two numbers
fn bounds_of_every_length() {
    check_bounds!(u8: u8, u16: u16, u32: u32, u64: u64, u128: u128, usize: usize);
    check_bounds!(i8: u8, i16: u16, i32: u32, i64: u64, i128: u128, isize: usize);
}
