//! ChaCha in groups of eight blocks, for streams: each draw is a block of 512 bytes.

use crate::rand::chacha::ChaCha;
use crate::rand::{fill_by_blocks, Rng, SeedableRng};
use core::fmt;

/// A `ChaCha` that draws its next eight blocks at once.
///
/// A draw returns 512 bytes, and adds 8 to the counter. The generator does not buffer: each request
/// starts with a new group and drops the rest of its last group, so every number takes eight
/// blocks. With a buffer, as in `ChaCha20Stream`, no bytes are dropped: starting with an empty
/// buffer, it delivers the same bytes as a buffered `ChaCha`.
///
/// Like `ChaCha`, it is not a vetted cryptographic generator.
///
/// An odd `ROUNDS` does not compile.
pub struct ChaChaGroups<const ROUNDS: u8> {
    chacha: ChaCha<ROUNDS>,
}

impl<const ROUNDS: u8> ChaChaGroups<ROUNDS> {
    /// Creates a generator with this key and nonce and the counter 0. An odd `ROUNDS` does not
    /// compile.
    #[must_use]
    pub fn new_key(key: [u8; 32], nonce: [u8; 8]) -> Self {
        let () = crate::layer::Rounds::<ROUNDS>::EVEN;

        ChaChaGroups {
            chacha: ChaCha::new_key(key, nonce),
        }
    }

    /// Creates a generator with this key and nonce whose next group begins with the block at this
    /// index: the counter is `index`. An odd `ROUNDS` does not compile.
    ///
    /// To store a generator, store its `key`, `nonce` and `counter`. `at` restores an equal one
    /// from the three.
    #[must_use]
    pub fn at(key: [u8; 32], nonce: [u8; 8], index: u64) -> Self {
        let () = crate::layer::Rounds::<ROUNDS>::EVEN;

        ChaChaGroups {
            chacha: ChaCha::at(key, nonce, index),
        }
    }

    /// Creates a generator with the same key and nonce whose next group begins with the block at
    /// this index.
    #[must_use]
    pub fn at_index(&self, index: u64) -> Self {
        ChaChaGroups {
            chacha: ChaCha::at(self.chacha.key(), self.chacha.nonce(), index),
        }
    }

    /// Returns the key, as 32 bytes. The key, the nonce and the counter make up the state.
    #[must_use]
    pub fn key(&self) -> [u8; 32] {
        self.chacha.key()
    }

    /// Returns the nonce, as 8 bytes.
    #[must_use]
    pub fn nonce(&self) -> [u8; 8] {
        self.chacha.nonce()
    }

    /// Returns the counter: the index of the next group's first block for this key and nonce.
    #[inline]
    #[must_use]
    pub fn counter(&self) -> u64 {
        self.chacha.counter()
    }

    /// Jumps ahead by n blocks of 64 bytes, by one addition. A draw advances by 8 of them.
    #[inline]
    pub fn jump_blocks(&mut self, n: u64) {
        self.chacha.jump(n);
    }
}

/// The clone equals the original. Nothing is allocated.
impl<const ROUNDS: u8> Clone for ChaChaGroups<ROUNDS> {
    #[inline]
    fn clone(&self) -> Self {
        ChaChaGroups {
            chacha: self.chacha.clone(),
        }
    }
}

/// Two generators are equal if and only if their states are: the key, the nonce and the counter.
impl<const ROUNDS: u8> PartialEq for ChaChaGroups<ROUNDS> {
    #[inline]
    fn eq(&self, other: &Self) -> bool {
        self.chacha == other.chacha
    }
}

impl<const ROUNDS: u8> Eq for ChaChaGroups<ROUNDS> {}

impl<const ROUNDS: u8> fmt::Debug for ChaChaGroups<ROUNDS> {
    fn fmt(&self, f: &mut fmt::Formatter<'_>) -> fmt::Result {
        let counter = self.counter();
        write!(f, "ChaChaGroups {{ rounds: {ROUNDS}, counter: {counter} }}")
    }
}

impl<const ROUNDS: u8> fmt::Display for ChaChaGroups<ROUNDS> {
    fn fmt(&self, f: &mut fmt::Formatter<'_>) -> fmt::Result {
        write!(f, "ChaCha ({ROUNDS} rounds, by groups)")
    }
}

impl<const ROUNDS: u8> Rng<512> for ChaChaGroups<ROUNDS> {
    #[inline]
    fn rand(&mut self) -> [u8; 512] {
        self.chacha.next_group()
    }

    fn fill_bytes(&mut self, buffer: &mut [u8]) {
        fill_by_blocks(self, buffer)
    }
}

impl<const ROUNDS: u8> SeedableRng<40, 512> for ChaChaGroups<ROUNDS> {
    /// Uses the first 32 bytes of the seed as the key and the last 8 as the nonce. The counter is
    /// 0.
    fn reseed(&mut self, seed: [u8; 40]) {
        self.chacha.reseed(seed);
    }
}
