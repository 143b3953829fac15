//! ChaCha as a generator: each draw is a block of 64 bytes, computed from a 256-bit key.

use crate::crypto::chacha::{
    chacha_block, chacha_increment_counter, chacha_init, counter, eight_blocks, four_blocks,
    set_counter, EightLanes, FourBlocks, Wide,
};
#[cfg(feature = "std")]
use crate::entropy::{system, EntropyError};
use crate::parts::{draws_before, Parts, PastPeriod};
use crate::rand::split_mix::seed_from;
use crate::rand::{fill_by_blocks, Rng, SeedableRng};
use core::fmt;
#[cfg(feature = "std")]
use std::io::Read;

/// ChaCha with 8 rounds, which computes a whole block for each number: for numbers, use
/// [`ChaCha8Stream`](crate::ChaCha8Stream). The standard has 20 rounds. See [`ChaCha`].
pub type ChaCha8 = ChaCha<8>;

/// ChaCha with 12 rounds, which computes a whole block for each number: for numbers, use
/// [`ChaCha12Stream`](crate::ChaCha12Stream). The standard has 20 rounds. See [`ChaCha`].
pub type ChaCha12 = ChaCha<12>;

/// ChaCha with 20 rounds, the standard's number, which computes a whole block for each number: for
/// numbers, use [`ChaCha20Stream`](crate::ChaCha20Stream). See [`ChaCha`].
pub type ChaCha20 = ChaCha<20>;

/// The keystream of the stream cipher ChaCha in whole blocks of 64 bytes: **for numbers, use a
/// stream such as [`ChaCha20Stream`](crate::ChaCha20Stream), which is some 25 times as fast.**
///
/// It has a 64-bit counter and a 64-bit nonce, after Daniel J. Bernstein, "ChaCha, a variant of
/// Salsa20" (2008).
///
/// A draw returns the block of the current state as 64 bytes, each 32-bit word in little-endian
/// order, and adds 1 to the counter. After the block of the greatest counter, 2^64 - 1, the counter
/// is 0 again, with the same key and nonce.
///
/// The generator does not buffer: each request starts with a new block, so that even a single byte
/// takes a whole block. A stream drops no bytes, and computes eight blocks at once.
///
/// Use it for long reproducible streams whose blocks can be reached by index. The cipher is fast
/// and well studied, and its keystream is believed to be unpredictable while the key is secret.
/// `ChaCha8` and `ChaCha12` have fewer rounds than the standard's 20.
///
/// This is not a vetted cryptographic generator: it does not reseed itself, it does not erase keys
/// from memory, and it has not been audited. For keys, tokens and passwords, or if there is an
/// adversary, use a vetted generator. For encryption, never use the same pair of key and nonce
/// twice.
///
/// An odd `ROUNDS` does not compile.
///
/// # Examples
///
/// ```
/// use nanorand_proved::{ChaCha20, Rng};
///
/// let mut rng = ChaCha20::new_key([0; 32], [0; 8]);
/// assert_eq!(rng.rand()[..4], [0x76, 0xb8, 0xe0, 0xad]); // the first of 64 bytes
/// assert_eq!(rng.counter(), 1);
/// ```
pub struct ChaCha<const ROUNDS: u8> {
    state: [u32; 16],
}

impl<const ROUNDS: u8> ChaCha<ROUNDS> {
    /// Creates a generator with this key and nonce and the counter 0. An odd `ROUNDS` does not
    /// compile.
    #[must_use]
    pub const fn new_key(key: [u8; 32], nonce: [u8; 8]) -> Self {
        let () = crate::layer::Rounds::<ROUNDS>::EVEN;

        ChaCha {
            state: chacha_init(key, nonce),
        }
    }

    /// Creates a generator with this key and nonce whose next block is the one at this index: the
    /// counter is `index`. An odd `ROUNDS` does not compile.
    ///
    /// To store a generator, store its `key`, `nonce` and `counter`. `at` restores an equal one
    /// from the three.
    #[must_use]
    pub fn at(key: [u8; 32], nonce: [u8; 8], index: u64) -> Self {
        let () = crate::layer::Rounds::<ROUNDS>::EVEN;

        let mut state = chacha_init(key, nonce);
        set_counter(&mut state, index);
        ChaCha { state }
    }

    /// Creates a generator whose key and nonce are made from a number, which may be small: 0, 1, 2,
    /// .., a port, a year. Different numbers produce different states. The counter is 0. An odd
    /// `ROUNDS` does not compile.
    ///
    /// The 40 bytes of key and nonce are the first five 64-bit words that SplitMix64 produces from
    /// the number, in little-endian order (Guy Steele, Doug Lea and Christine Flood, 2014, with the
    /// constants of Sebastiano Vigna). There are only 2^64 such keys, so they keep no secret.
    #[must_use]
    pub fn seed_from_u64(number: u64) -> Self {
        let () = crate::layer::Rounds::<ROUNDS>::EVEN;

        let (key, nonce) = split_seed(&seed_from(number));
        ChaCha::new_key(key, nonce)
    }

    /// Creates a generator from the next 40 bytes of a reader, with the counter 0: the first 32 are
    /// the key and the other 8 the nonce. An odd `ROUNDS` does not compile.
    ///
    /// # Errors
    ///
    /// Returns `Short` or `Fault`, as `entropy::system` does. For a reader such as a slice of
    /// bytes, an error means that it returned fewer than 40 bytes.
    #[cfg(feature = "std")]
    pub fn new<R: Read>(source: &mut R) -> Result<Self, EntropyError> {
        let () = crate::layer::Rounds::<ROUNDS>::EVEN;

        let mut key = [0; 32];
        let mut nonce = [0; 8];
        system(source, &mut key)?;
        system(source, &mut nonce)?;
        Ok(ChaCha::new_key(key, nonce))
    }

    /// Returns the key, as 32 bytes. The key, the nonce and the counter make up the state.
    #[must_use]
    pub fn key(&self) -> [u8; 32] {
        let bytes: &[u8] = &bytes_of(&self.words());
        let mut key = [0; 32];
        key.copy_from_slice(&bytes[16..48]);
        key
    }

    /// Returns the nonce, as 8 bytes.
    #[must_use]
    pub fn nonce(&self) -> [u8; 8] {
        let bytes: &[u8] = &bytes_of(&self.words());
        let mut nonce = [0; 8];
        nonce.copy_from_slice(&bytes[56..64]);
        nonce
    }

    /// Returns the counter: the index of the next block of this key and nonce.
    #[inline]
    #[must_use]
    pub fn counter(&self) -> u64 {
        counter(&self.words())
    }

    #[inline]
    fn words(&self) -> [u32; 16] {
        self.state
    }

    /// Jumps ahead by n draws (blocks), by one addition. The period of the states is exactly 2^64.
    #[inline]
    pub fn jump(&mut self, n: u64) {
        let counter = counter(&self.state).wrapping_add(n);
        set_counter(&mut self.state, counter);
    }

    // Writes the next four blocks, as one request of 256 bytes.
    fn fill_four(&mut self, out: &mut [u8]) {
        let blocks = four_blocks::<ROUNDS>(&self.state);
        self.jump(4);
        write_four(out, blocks);
    }

    // Fills as many whole groups of eight blocks as fit, if eight lanes are available, and returns
    // the number of bytes filled. The rest of the slice is filled as by a request of its own.
    #[inline]
    fn fill_wide(&mut self, buffer: &mut [u8]) -> usize {
        let mut filled = 0;
        if let Some(lanes) = EightLanes::find() {
            while 512 <= buffer.len() - filled {
                lanes.run(self, &mut buffer[filled..filled + 512]);
                filled += 512;
            }
        }
        filled
    }

    // Returns the next eight blocks, computed on eight lanes if these are available.
    #[inline]
    pub(crate) fn next_group(&mut self) -> [u8; 512] {
        if let Some(lanes) = EightLanes::find() {
            lanes.next(self)
        } else {
            let mut group = [0; 512];
            self.fill_bytes(&mut group);
            group
        }
    }
}

impl<const ROUNDS: u8> Wide for ChaCha<ROUNDS> {
    // Writes the next eight blocks, as one request of 512 bytes.
    #[inline(always)]
    fn fill_eight(&mut self, lanes: EightLanes, out: &mut [u8]) {
        let (front, back) = eight_blocks::<ROUNDS>(lanes, &self.state);
        self.jump(8);
        write_four(&mut out[0..256], front);
        write_four(&mut out[256..], back);
    }

    #[inline(always)]
    fn next_eight(&mut self, lanes: EightLanes) -> [u8; 512] {
        let mut group = [0; 512];
        Wide::fill_eight(self, lanes, &mut group);
        group
    }
}

/// The clone equals the original. Nothing is allocated.
impl<const ROUNDS: u8> Clone for ChaCha<ROUNDS> {
    #[inline]
    fn clone(&self) -> Self {
        ChaCha { state: self.state }
    }
}

/// Two generators are equal if and only if their states are: the key, the nonce and the counter.
impl<const ROUNDS: u8> PartialEq for ChaCha<ROUNDS> {
    #[inline]
    fn eq(&self, other: &Self) -> bool {
        self.state == other.state
    }
}

impl<const ROUNDS: u8> Eq for ChaCha<ROUNDS> {}

/// Writes the name `ChaCha20` for every number of rounds, as `nanorand` 0.7.0 does, and then the
/// rounds and the counter: `ChaCha20 { rounds: 8, counter: 0 }`. The key and the nonce are not
/// written.
impl<const ROUNDS: u8> fmt::Debug for ChaCha<ROUNDS> {
    fn fmt(&self, f: &mut fmt::Formatter<'_>) -> fmt::Result {
        let counter = counter(&self.state);
        write!(f, "ChaCha20 {{ rounds: {ROUNDS}, counter: {counter} }}")
    }
}

impl<const ROUNDS: u8> fmt::Display for ChaCha<ROUNDS> {
    fn fmt(&self, f: &mut fmt::Formatter<'_>) -> fmt::Result {
        write!(f, "ChaCha ({ROUNDS} rounds)")
    }
}

impl<const ROUNDS: u8> Rng<64> for ChaCha<ROUNDS> {
    #[inline]
    fn rand(&mut self) -> [u8; 64] {
        // The counter is stored before the block is computed, since loading its row for the next
        // block waits for this store.
        let input = self.state;
        if !chacha_increment_counter(&mut self.state) {
            set_counter(&mut self.state, 0);
        }
        bytes_of(&chacha_block::<ROUNDS>(input))
    }

    /// Fills the slice with the same bytes as `rand`, block by block. Whole groups of 256 bytes are
    /// computed as four blocks at once, and whole groups of 512 bytes as eight blocks at once if
    /// that is faster.
    fn fill_bytes(&mut self, buffer: &mut [u8]) {
        let mut filled = self.fill_wide(buffer);
        while 256 <= buffer.len() - filled {
            self.fill_four(&mut buffer[filled..filled + 256]);
            filled += 256;
        }
        fill_by_blocks(self, &mut buffer[filled..])
    }
}

/// A draw is a block of 64 bytes. The period is 2^64 draws.
impl<const ROUNDS: u8> Parts<64> for ChaCha<ROUNDS> {
    #[inline]
    fn part(&self, index: u64, draws: u64) -> Result<Self, PastPeriod> {
        let before = draws_before(index, draws, 1 << 64)?;
        let mut part = ChaCha { state: self.state };
        part.jump(before as u64);
        Ok(part)
    }
}

impl<const ROUNDS: u8> SeedableRng<40, 64> for ChaCha<ROUNDS> {
    /// Uses the first 32 bytes of the seed as the key and the last 8 as the nonce. The counter is
    /// 0.
    fn reseed(&mut self, seed: [u8; 40]) {
        let (key, nonce) = split_seed(&seed);
        self.state = chacha_init(key, nonce);
    }
}

// Splits a seed into the key and the nonce.
#[inline]
pub(crate) fn split_seed(seed: &[u8; 40]) -> ([u8; 32], [u8; 8]) {
    let mut key = [0; 32];
    let mut nonce = [0; 8];
    key.copy_from_slice(&seed[..32]);
    nonce.copy_from_slice(&seed[32..]);
    (key, nonce)
}

#[inline(always)]
fn write_four(out: &mut [u8], blocks: FourBlocks) {
    let (first, second, third, fourth) = blocks;
    out[0..64].copy_from_slice(&bytes_of(&first));
    out[64..128].copy_from_slice(&bytes_of(&second));
    out[128..192].copy_from_slice(&bytes_of(&third));
    out[192..].copy_from_slice(&bytes_of(&fourth));
}

// Returns the words as bytes, each in little-endian order.
#[inline(always)]
fn bytes_of(words: &[u32; 16]) -> [u8; 64] {
    let mut bytes = [0; 64];
    for i in 0..16 {
        bytes[4 * i..4 * i + 4].copy_from_slice(&words[i].to_le_bytes());
    }
    bytes
}
