//! WyRand: a generator with a 64-bit seed that draws a 64-bit word at a time.

#[cfg(feature = "std")]
use crate::entropy::{system, EntropyError};
use crate::parts::{draws_before, Parts, PastPeriod};
use crate::rand::split_mix::seed_from;
use crate::rand::{fill_by_blocks, Rng, SeedableRng};
use crate::swap::swap;
use crate::values::word::pick_word;
use crate::values::RangeError;
use core::fmt;
#[cfg(feature = "std")]
use std::io::Read;

const INCREMENT: u64 = 0xa076_1d64_78bd_642f;

// The inverse of INCREMENT: their product is 1 modulo 2^64.
const INVERSE: u64 = 0x939c_72e4_af1e_62cf;

const MASK: u64 = 0xe703_7ed1_a0b4_28db;

/// The generator wyrand of Wang Yi's wyhash (2019).
///
/// Not cryptographically secure: its state can be recovered from its outputs. Never use it to
/// generate a key, a token or a password.
///
/// A draw adds a constant to the seed, modulo 2^64, and multiplies the new seed s by (s xor another
/// constant). The 64-bit word is the high half of this 128-bit product xor its low half. The block
/// is the eight bytes of the word, in little-endian order. The generator does not buffer: each
/// request starts with a new block.
///
/// # Examples
///
/// ```
/// use nanorand_proved::{Rng, WyRand};
///
/// let mut rng = WyRand::seed_from_u64(42);
/// assert_eq!(rng.range::<u64>(1..=6), 3);
/// let number: u64 = rng.generate();
/// let mut cards = ["ace", "king", "queen", "jack"];
/// rng.permute(&mut cards);
/// # let _ = number;
/// ```
#[repr(C)]
pub struct WyRand {
    seed: u64,
}

impl WyRand {
    /// Creates a generator whose seed is made from a number, which may be small: 0, 1, 2, .., a
    /// port, a year. Different numbers produce different seeds.
    ///
    /// The seed is the first 64-bit word that SplitMix64 produces from the number (Guy Steele, Doug
    /// Lea and Christine Flood, 2014, with the constants of Sebastiano Vigna).
    #[inline]
    #[must_use]
    pub fn seed_from_u64(number: u64) -> Self {
        WyRand::new_seed(u64::from_le_bytes(seed_from(number)))
    }

    /// Creates a generator with this seed. The seed is the state itself, and is not mixed.
    ///
    /// Generators with neighbouring seeds, such as 0, 1, 2, .., draw correlated numbers: for such
    /// numbers, use `seed_from_u64`. If you need many generators, use parts of one stream (`part`),
    /// or mixed seeds: numbers that another generator drew, or the first 8 bytes of the SHA-256 of
    /// a name.
    #[inline]
    #[must_use]
    pub const fn new_seed(seed: u64) -> Self {
        WyRand { seed }
    }

    /// Creates a generator whose seed is the next 8 bytes of a reader, in little-endian order. To
    /// seed from the operating system, use `from_entropy`.
    ///
    /// # Errors
    ///
    /// Returns `Short` or `Fault`, as `entropy::system` does. For a reader such as a slice of
    /// bytes, an error means that it returned fewer than 8 bytes.
    #[cfg(feature = "std")]
    pub fn new<R: Read>(source: &mut R) -> Result<Self, EntropyError> {
        let mut seed = [0; 8];
        system(source, &mut seed)?;
        Ok(WyRand::new_seed(u64::from_le_bytes(seed)))
    }

    /// Returns the seed.
    #[inline]
    #[must_use]
    pub const fn seed(&self) -> u64 {
        self.seed
    }

    /// Jumps ahead by n draws, by one multiplication. The period of the seeds is exactly 2^64.
    #[inline]
    pub fn jump(&mut self, n: u64) {
        self.seed = self.seed.wrapping_add(n.wrapping_mul(INCREMENT));
    }

    /// Returns the number of draws, below 2^64, that lead from this seed to the other's. There is
    /// exactly one such number.
    #[inline]
    #[must_use]
    pub fn distance(&self, other: &WyRand) -> u64 {
        other.seed.wrapping_sub(self.seed).wrapping_mul(INVERSE)
    }
}

/// The clone equals the original. Nothing is allocated.
impl Clone for WyRand {
    #[inline]
    fn clone(&self) -> Self {
        WyRand { seed: self.seed }
    }
}

/// Two generators are equal if and only if their seeds are.
impl PartialEq for WyRand {
    #[inline]
    fn eq(&self, other: &Self) -> bool {
        self.seed == other.seed
    }
}

impl Eq for WyRand {}

impl fmt::Debug for WyRand {
    fn fmt(&self, f: &mut fmt::Formatter<'_>) -> fmt::Result {
        write!(f, "WyRand {{ seed: 0x{:x} }}", self.seed)
    }
}

impl fmt::Display for WyRand {
    fn fmt(&self, f: &mut fmt::Formatter<'_>) -> fmt::Result {
        f.write_str("WyRand")
    }
}

impl Rng<8> for WyRand {
    #[inline(always)]
    fn rand(&mut self) -> [u8; 8] {
        self.seed = self.seed.wrapping_add(INCREMENT);
        word(self.seed).to_le_bytes()
    }

    #[inline(always)]
    fn fill_bytes(&mut self, buffer: &mut [u8]) {
        fill_by_blocks(self, buffer)
    }

    // Shuffles with a copy of the seed, which stays in a register and is stored once at the end.
    #[inline]
    fn shuffle<T>(&mut self, target: &mut [T]) -> Result<(), RangeError> {
        let (answer, seed) = shuffle_from(self.seed, target);
        self.seed = seed;
        answer
    }
}

/// A draw is a block of eight bytes. The period is 2^64 draws.
impl Parts<8> for WyRand {
    #[inline]
    fn part(&self, index: u64, draws: u64) -> Result<Self, PastPeriod> {
        let before = draws_before(index, draws, 1 << 64)?;
        let mut part = WyRand { seed: self.seed };
        part.jump(before as u64);
        Ok(part)
    }
}

impl SeedableRng<8, 8> for WyRand {
    /// Uses these bytes as the new seed, in little-endian order.
    #[inline]
    fn reseed(&mut self, seed: [u8; 8]) {
        self.seed = u64::from_le_bytes(seed);
    }
}

// Returns the word of the seed after a draw: the high half of the product xor its low half. The low
// half is computed by a multiplication of its own, and the borrow is always 0. Written like this,
// LLVM computes one word after another. Otherwise it computes two words in a vector by scalar
// multiplications, which takes twice as long.
#[inline(always)]
fn word(seed: u64) -> u64 {
    let mask = seed ^ MASK;
    let low = seed.wrapping_mul(mask);
    let product = u128::from(seed) * u128::from(mask);
    let borrow = u64::from(((product % (1 << 64)) as u64) < low);
    ((product >> 64) as u64).wrapping_sub(borrow) ^ low
}

// Shuffles with the given seed, and returns the result and the seed after it.
#[inline]
fn shuffle_from<T>(seed: u64, target: &mut [T]) -> (Result<(), RangeError>, u64) {
    let mut now = seed;
    let count = target.len();
    for place in 0..count {
        let (ahead, after) = below(now, (count - place) as u64);
        now = after;
        match ahead {
            Some(ahead) => swap(target, place, place + ahead as usize),
            None => return (Err(RangeError::Exhausted), now),
        }
    }
    (Ok(()), now)
}

// Draws a number below `left` with the given seed, and returns it and the seed after the draw.
#[inline]
fn below(seed: u64, left: u64) -> (Option<u64>, u64) {
    let after = seed.wrapping_add(INCREMENT);
    let product = u128::from(word(after)) * u128::from(left);
    // Fewer than `left` words are rejected, so a low half of `left` or more is accepted at once.
    let low = (product % (1 << 64)) as u64;
    if low >= left {
        (Some((product >> 64) as u64), after)
    } else {
        searched(after, left)
    }
}

// Draws the same number by testing each word in turn. It takes the seed after the first draw, so
// that the loop of the caller keeps only one seed.
#[cold]
#[inline(never)]
fn searched(after: u64, left: u64) -> (Option<u64>, u64) {
    let mut now = after.wrapping_sub(INCREMENT);
    let mut number = None;
    let mut drawn = 0usize;
    while number.is_none() & (drawn < 128) {
        now = now.wrapping_add(INCREMENT);
        number = pick_word(u128::from(left), 64, word(now));
        drawn += 1;
    }
    (number, now)
}
