//! Ranges of 128-bit integers, by the rule of the proved `pick_word`. Hand-written and tested, not
//! proved.

use super::{first_accepted, mapped};
use crate::rand::Rng;
use crate::values::{RandomGen, RandomRange, RangeError};
use core::fmt::{self, Formatter};
use core::ops::Bound;

/// Each number of the range is produced by the same number of words of 128 bits. The errors are
/// those of the other integer types.
impl<G: Rng<OUTPUT>, const OUTPUT: usize> RandomRange<G, OUTPUT> for u128 {
    #[inline]
    fn random_range(rng: &mut G, low: Bound<u128>, high: Bound<u128>) -> Result<u128, RangeError> {
        draw_between(rng, low, high)
    }

    fn write_bound(&self, f: &mut Formatter<'_>) -> fmt::Result {
        write!(f, "{self:?}")
    }
}

/// Each number of the range is produced by the same number of words of 128 bits. The errors are
/// those of the other integer types.
impl<G: Rng<OUTPUT>, const OUTPUT: usize> RandomRange<G, OUTPUT> for i128 {
    #[inline]
    fn random_range(rng: &mut G, low: Bound<i128>, high: Bound<i128>) -> Result<i128, RangeError> {
        let rank = draw_between(rng, mapped(low, rank_of), mapped(high, rank_of))?;
        Ok((rank ^ SIGN) as i128)
    }

    fn write_bound(&self, f: &mut Formatter<'_>) -> fmt::Result {
        write!(f, "{self:?}")
    }
}

const SIGN: u128 = 1 << 127;

// The rank of a number: the least number has rank 0.
#[inline]
fn rank_of(number: i128) -> u128 {
    number as u128 ^ SIGN
}

#[inline]
fn draw_between<G: Rng<OUTPUT>, const OUTPUT: usize>(
    rng: &mut G,
    low: Bound<u128>,
    high: Bound<u128>,
) -> Result<u128, RangeError> {
    let first = first_of(low).ok_or(RangeError::Empty)?;
    let last = last_of(high).ok_or(RangeError::Empty)?;
    let others = last.checked_sub(first).ok_or(RangeError::Empty)?;
    match others.checked_add(1) {
        Some(size) => first_accepted(rng, |rng| pick_number(size, 128, u128::random(rng)))
            .map(|number| first + number)
            .ok_or(RangeError::Exhausted),
        None => Ok(rng.generate()),
    }
}

#[inline]
fn first_of(low: Bound<u128>) -> Option<u128> {
    match low {
        Bound::Included(number) => Some(number),
        Bound::Excluded(number) => number.checked_add(1),
        Bound::Unbounded => Some(0),
    }
}

#[inline]
fn last_of(high: Bound<u128>) -> Option<u128> {
    match high {
        Bound::Included(number) => Some(number),
        Bound::Excluded(number) => number.checked_sub(1),
        Bound::Unbounded => Some(u128::MAX),
    }
}

// Returns the number below `size` that a word of `bits` bits produces, or `None` if the word is
// rejected. `size` is from 1 to 2^bits - 1.
#[inline]
fn pick_number(size: u128, bits: u32, word: u128) -> Option<u128> {
    let (number, low) = product(size, bits, word);
    (low >= size || low >= rejected(size, bits)).then_some(number)
}

// Returns how many words are rejected: 2^bits modulo `size`. This needs no division if `size` is
// more than half of 2^bits.
#[inline]
fn rejected(size: u128, bits: u32) -> u128 {
    let others = ones(bits) - size + 1;
    if others < size {
        others
    } else {
        others % size
    }
}

// Returns the two halves of `word * size`, each of `bits` bits, the high half first. The factors
// are multiplied half by half, since a product of halves has only `bits` bits.
#[inline]
fn product(size: u128, bits: u32, word: u128) -> (u128, u128) {
    let half = bits / 2;
    let (size_high, size_low) = (size >> half, size & ones(half));
    let (word_high, word_low) = (word >> half, word & ones(half));
    let lowest = word_low * size_low;
    let first = word_high * size_low + (lowest >> half);
    let second = word_low * size_high + (first & ones(half));
    let high = word_high * size_high + (first >> half) + (second >> half);
    let low = ((second & ones(half)) << half) + (lowest & ones(half));
    (high, low)
}

// The greatest number of `bits` bits.
#[inline]
fn ones(bits: u32) -> u128 {
    u128::MAX >> (128 - bits)
}

#[cfg(test)]
mod tests {
    use super::pick_number;
    use crate::values::pick_word;

    fn agrees(size: u64, bits: u32, word: u64) {
        let wide = pick_number(u128::from(size), bits, u128::from(word));
        let proved = pick_word(u128::from(size), bits, word).map(u128::from);
        assert_eq!(wide, proved, "{size} {bits} {word}");
    }

    #[test]
    fn every_size_and_word_of_8_bits() {
        for size in 1..=255 {
            (0..=255).for_each(|word| agrees(size, 8, word));
        }
    }

    // Numbers at both ends of the range of the type, and numbers spread between them.
    fn numbers(bits: u32) -> impl Iterator<Item = u64> {
        (0..20_u64).flat_map(move |step| {
            let spread = step.wrapping_mul(0x9e37_79b9_7f4a_7c15);
            [step, spread, !step].map(|number| number & u64::MAX >> (64 - bits))
        })
    }

    #[test]
    fn many_sizes_and_words_of_more_bits() {
        for bits in [16, 32, 64] {
            for size in numbers(bits).filter(|size| *size > 0) {
                numbers(bits).for_each(|word| agrees(size, bits, word));
            }
        }
    }
}
