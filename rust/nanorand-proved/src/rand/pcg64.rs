//! Pcg64: a generator with a 128-bit seed that draws a 64-bit word at a time.

#[cfg(feature = "std")]
use crate::entropy::{system, EntropyError};
use crate::parts::{draws_before, Parts, PastPeriod};
use crate::rand::halves::folded;
use crate::rand::hexadecimal::Hexadecimal;
use crate::rand::split_mix::seed_from;
use crate::rand::{fill_by_blocks, Rng, SeedableRng};
use core::fmt;
#[cfg(feature = "std")]
use std::io::Read;

const MULTIPLIER: u128 = 47026247687942121848144207491837523525;

const SQUARE: u128 = u128::wrapping_mul(MULTIPLIER, MULTIPLIER);

// A draw changes the seed s to FACTOR * s + TERM, modulo 2^128.
const FACTOR: u128 = u128::wrapping_add(
    u128::wrapping_mul(3, SQUARE),
    u128::wrapping_add(u128::wrapping_mul(2, MULTIPLIER), 2),
);

const TERM: u128 = u128::wrapping_add(u128::wrapping_add(SQUARE, MULTIPLIER), 1);

/// The generator Pcg64 of the Rust crate `nanorand` 0.7.0, after Melissa E. O'Neill, "PCG: A Family
/// of Simple Fast Space-Efficient Statistically Good Algorithms for Random Number Generation"
/// (2014).
///
/// Not cryptographically secure: its state can be recovered from its outputs. Never use it to
/// generate a key, a token or a password.
///
/// A draw multiplies the seed by a constant and adds another constant, modulo 2^128. The 64-bit
/// word is the high half of the new seed xor its low half. The block is the eight bytes of the
/// word, in little-endian order. The generator does not buffer: each request starts with a new
/// block.
///
/// `state` and `inc` describe the last draw: after it, `state` is the new seed, and `inc` is twice
/// the old seed plus 1, modulo 2^128. No draw reads them. As in the Rust crate, each draw starts
/// over from the seed and rotates nothing, so the streams differ from those of other PCG
/// implementations.
///
/// # Examples
///
/// ```
/// use nanorand_proved::{Pcg64, Rng};
///
/// let mut rng = Pcg64::seed_from_u64(42);
/// let mut ahead = rng.clone();
/// assert_eq!(rng.range::<u64>(1..=6), 3);
/// ahead.jump(1);
/// assert_eq!(ahead, rng);
/// ```
pub struct Pcg64 {
    seed: u128,
    state: u128,
    inc: u128,
}

impl Pcg64 {
    /// Creates a generator whose seed is made from a number, which may be small: 0, 1, 2, .., a
    /// port, a year. Different numbers produce different seeds.
    ///
    /// The 16 bytes of the seed are the first two 64-bit words that SplitMix64 produces from the
    /// number, in little-endian order (Guy Steele, Doug Lea and Christine Flood, 2014, with the
    /// constants of Sebastiano Vigna). `state` and `inc` are 0.
    #[inline]
    #[must_use]
    pub fn seed_from_u64(number: u64) -> Self {
        Pcg64::new_seed(u128::from_le_bytes(seed_from(number)))
    }

    /// Creates a generator with this seed. The seed is the state itself, and is not mixed. `state`
    /// and `inc` are 0 until the first draw.
    ///
    /// Generators with neighbouring seeds, such as 0, 1, 2, .., draw correlated numbers: for such
    /// numbers, use `seed_from_u64`. If two seeds differ by a multiple of 2^k, for k above 64, all
    /// words of their streams agree in the low k - 64 bits. If you need many generators, use parts
    /// of one stream (`part`), or mixed seeds: numbers that another generator drew, or the first 16
    /// bytes of the SHA-256 of a name.
    #[inline]
    #[must_use]
    pub const fn new_seed(seed: u128) -> Self {
        Pcg64 {
            seed,
            state: 0,
            inc: 0,
        }
    }

    /// Creates a generator whose seed is the next 16 bytes of a reader, in little-endian order.
    /// `state` and `inc` are 0. To seed from the operating system, use `from_entropy`.
    ///
    /// # Errors
    ///
    /// Returns `Short` or `Fault`, as `entropy::system` does. For a reader such as a slice of
    /// bytes, an error means that it returned fewer than 16 bytes.
    #[cfg(feature = "std")]
    pub fn new<R: Read>(source: &mut R) -> Result<Self, EntropyError> {
        let mut seed = [0; 16];
        system(source, &mut seed)?;
        Ok(Pcg64::new_seed(u128::from_le_bytes(seed)))
    }

    /// Returns the seed, which alone determines the blocks to come.
    #[inline]
    #[must_use]
    pub const fn seed(&self) -> u128 {
        self.seed
    }

    /// Jumps ahead by n draws. `state` and `inc` are also those of n draws later.
    ///
    /// It takes at most 128 steps and one draw, after Forrest Brown, "Random Number Generation with
    /// Arbitrary Strides" (1994). `jump(0)` changes nothing. The period of the seeds is exactly
    /// 2^126.
    pub fn jump(&mut self, n: u128) {
        if n > 0 {
            self.seed = seed_after(self.seed, n - 1);
            let _ = self.rand();
        }
    }

    /// Returns the number of draws, below 2^126, that lead from this seed to the other's, or `None`
    /// if and only if no number of draws does. Two seeds are in the same cycle if and only if they
    /// are equal modulo 8 or their sum is 7 modulo 8.
    ///
    /// It allocates nothing and takes at most 126 steps. `state` and `inc` are ignored.
    #[must_use]
    pub fn distance(&self, other: &Pcg64) -> Option<u128> {
        if in_one_cycle(self.seed, other.seed) {
            Some(draws_between(self.seed, other.seed))
        } else {
            None
        }
    }

    #[inline]
    fn copied(&self) -> Self {
        Pcg64 {
            seed: self.seed(),
            state: self.state,
            inc: self.inc,
        }
    }
}

/// The clone equals the original. Nothing is allocated.
impl Clone for Pcg64 {
    #[inline]
    fn clone(&self) -> Self {
        self.copied()
    }
}

/// Two generators are equal if and only if their states are: the seed, `state` and `inc`. Two
/// generators with equal seeds draw equal numbers even if `state` and `inc` differ.
impl PartialEq for Pcg64 {
    #[inline]
    fn eq(&self, other: &Self) -> bool {
        self.seed == other.seed && self.state == other.state && self.inc == other.inc
    }
}

impl Eq for Pcg64 {}

impl fmt::Debug for Pcg64 {
    fn fmt(&self, f: &mut fmt::Formatter<'_>) -> fmt::Result {
        write!(
            f,
            "Pcg64 {{ seed: 0x{}, state: 0x{}, inc: 0x{} }}",
            Hexadecimal(self.seed),
            Hexadecimal(self.state),
            Hexadecimal(self.inc)
        )
    }
}

impl fmt::Display for Pcg64 {
    fn fmt(&self, f: &mut fmt::Formatter<'_>) -> fmt::Result {
        f.write_str("Pcg64")
    }
}

impl Rng<8> for Pcg64 {
    #[inline(always)]
    fn rand(&mut self) -> [u8; 8] {
        self.inc = self.seed.wrapping_mul(2).wrapping_add(1);
        self.seed = self.seed.wrapping_mul(FACTOR).wrapping_add(TERM);
        self.state = self.seed;
        folded(self.seed).to_le_bytes()
    }

    #[inline(always)]
    fn fill_bytes(&mut self, buffer: &mut [u8]) {
        fill_by_blocks(self, buffer)
    }
}

/// A draw is a block of eight bytes. The period is 2^126 draws.
impl Parts<8> for Pcg64 {
    fn part(&self, index: u64, draws: u64) -> Result<Self, PastPeriod> {
        let before = draws_before(index, draws, 1 << 126)?;
        let mut part = self.copied();
        part.jump(before);
        Ok(part)
    }
}

impl SeedableRng<16, 8> for Pcg64 {
    /// Uses these bytes as the new seed, in little-endian order. `state` and `inc` keep their
    /// values until the next draw.
    #[inline]
    fn reseed(&mut self, seed: [u8; 16]) {
        self.seed = u128::from_le_bytes(seed);
    }
}

// Returns the seed after `draws` draws. `factor` and `term` describe 1, 2, 4, .. draws at once, and
// each step takes the lowest bit of the number of draws left.
fn seed_after(start: u128, draws: u128) -> u128 {
    let mut seed = start;
    let mut left = draws;
    let mut factor = FACTOR;
    let mut term = TERM;
    while left > 0 {
        if left % 2 == 1 {
            seed = factor.wrapping_mul(seed).wrapping_add(term);
        }
        term = factor.wrapping_add(1).wrapping_mul(term);
        factor = factor.wrapping_mul(factor);
        left /= 2;
    }
    seed
}

#[inline]
fn in_one_cycle(start: u128, end: u128) -> bool {
    start % 8 == end % 8 || start % 8 + end % 8 == 7
}

// Returns the number of draws from `start` to `end`, found bit by bit from the lowest. Invariant:
// once the bits below `bit` are decided, `end - seed` is a multiple of 2^(bit + 2), and this bit is
// set if and only if it is an odd multiple. For bit 0, `end - seed` is 0 or odd modulo 8, and the
// bit is set if and only if it is odd.
fn draws_between(start: u128, end: u128) -> u128 {
    let mut seed = start;
    let mut draws: u128 = 0;
    let mut factor = FACTOR;
    let mut term = TERM;
    for bit in 0..126u32 {
        if (end.wrapping_sub(seed) >> bit) % 8 != 0 {
            seed = factor.wrapping_mul(seed).wrapping_add(term);
            draws += 1 << bit;
        }
        term = factor.wrapping_add(1).wrapping_mul(term);
        factor = factor.wrapping_mul(factor);
    }
    draws
}
