//! Random characters, and ranges of characters. Hand-written on top of the proved draw, and tested,
//! not proved.

use super::mapped;
use crate::rand::Rng;
use crate::values::word::draw_below;
use crate::values::{RandomGen, RandomRange, RangeError};
use core::fmt::{self, Formatter};
use core::ops::Bound;

// The first surrogate, and the number of surrogates. A surrogate is not a character.
const SURROGATES: u32 = 0xd800;
const SURROGATE_COUNT: u32 = 0x800;

const CHARACTERS: u32 = char::MAX as u32 + 1 - SURROGATE_COUNT;

/// Draws one of the 1,112,064 Unicode scalar values. Each is produced by the same number of words
/// of 32 bits. The value is U+0000 if 128 words in a row were rejected, since drawing a value
/// cannot return an error.
impl<G: Rng<OUTPUT>, const OUTPUT: usize> RandomGen<G, OUTPUT> for char {
    #[inline]
    fn random(rng: &mut G) -> char {
        draw_below(rng, u128::from(CHARACTERS), 32).map_or('\0', |rank| at_rank(rank as u32))
    }
}

/// Draws one of the Unicode scalar values within both bounds. Each is produced by the same number
/// of words of 32 bits; surrogates are skipped. The errors are those of the integer types.
impl<G: Rng<OUTPUT>, const OUTPUT: usize> RandomRange<G, OUTPUT> for char {
    #[inline]
    fn random_range(rng: &mut G, low: Bound<char>, high: Bound<char>) -> Result<char, RangeError> {
        let high = match mapped(high, rank_of) {
            Bound::Unbounded => Bound::Excluded(CHARACTERS),
            bound => bound,
        };
        u32::random_range(rng, mapped(low, rank_of), high).map(at_rank)
    }

    fn write_bound(&self, f: &mut Formatter<'_>) -> fmt::Result {
        write!(f, "{self:?}")
    }
}

#[inline]
fn rank_of(character: char) -> u32 {
    match u32::from(character) {
        scalar if scalar < SURROGATES => scalar,
        scalar => scalar - SURROGATE_COUNT,
    }
}

#[inline]
fn at_rank(rank: u32) -> char {
    let scalar = if rank < SURROGATES {
        rank
    } else {
        rank + SURROGATE_COUNT
    };
    char::from_u32(scalar).expect("a rank below the number of characters")
}
