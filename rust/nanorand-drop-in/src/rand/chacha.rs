//! `ChaCha` as a generator: each draw is a block of 64 bytes, computed from a 256-bit key.

use crate::adapter::Lent;
use crate::crypto::chacha::{chacha_block, chacha_increment_counter, chacha_init};
use crate::entropy::system_seed;
use crate::rand::{Rng, SeedableRng};
use core::fmt::{self, Debug, Display, Formatter};
use nanorand_proved as proved;
use nanorand_proved::rand::fill_by_blocks;
use nanorand_proved::Rng as _;

/// ChaCha with 8 rounds, fewer than the standard's 20.
pub type ChaCha8 = ChaCha<8>;

/// ChaCha with 12 rounds, fewer than the standard's 20.
pub type ChaCha12 = ChaCha<12>;

/// ChaCha with the standard's 20 rounds.
pub type ChaCha20 = ChaCha<20>;

// The number of bytes that `nanorand_proved` computes at once.
const GROUP: usize = 256;

/// The keystream of the stream cipher ChaCha: see [`nanorand_proved::ChaCha`]. It has not been
/// audited, and it is not a vetted cryptographic generator. For keys, tokens and passwords, or if
/// there is an adversary, use a vetted generator.
///
/// Each request starts with a new block, so that even a single byte takes a whole block of 64
/// bytes.
///
/// If the number of rounds is odd, the first draw panics.
#[derive(Clone)]
pub struct ChaCha<const ROUNDS: u8> {
    state: [u32; 16],
}

#[cfg(feature = "zeroize")]
super::wiped::wiped!([const ROUNDS: u8] ChaCha<ROUNDS>: state);

impl<const ROUNDS: u8> ChaCha<ROUNDS> {
    /// Creates a generator with a key and a nonce from the operating system.
    ///
    /// # Panics
    ///
    /// Panics if the system provides no random bytes.
    #[must_use]
    pub fn new() -> Self {
        Self::new_key(system_seed(), system_seed())
    }

    /// Creates a generator with this key and nonce and the counter 0.
    #[must_use]
    pub const fn new_key(key: [u8; 32], nonce: [u8; 8]) -> Self {
        Self {
            state: chacha_init(key, nonce),
        }
    }

    fn counter(&self) -> u64 {
        u64::from(self.state[12]) | u64::from(self.state[13]) << 32
    }

    // Each word holds half of the counter.
    #[allow(clippy::cast_possible_truncation)]
    fn set_counter(&mut self, counter: u64) {
        self.state[12] = counter as u32;
        self.state[13] = (counter >> 32) as u32;
    }

    // Fills the whole groups of the buffer, and returns how many bytes they have.
    fn fill_groups<const PROVED: u8>(&mut self, buffer: &mut [u8]) -> usize {
        let filled = buffer.len() - buffer.len() % GROUP;
        if filled > 0 {
            let bytes = bytes_of(&self.state);
            let mut key = [0; 32];
            let mut nonce = [0; 8];
            key.copy_from_slice(&bytes[16..48]);
            nonce.copy_from_slice(&bytes[56..]);
            let mut rng = proved::ChaCha::<PROVED>::at(key, nonce, self.counter());
            rng.fill_bytes(&mut buffer[..filled]);
            self.set_counter(rng.counter());
        }
        filled
    }
}

/// Calls [`ChaCha::new`].
impl<const ROUNDS: u8> Default for ChaCha<ROUNDS> {
    fn default() -> Self {
        Self::new()
    }
}

impl<const ROUNDS: u8> Rng<64> for ChaCha<ROUNDS> {
    /// After the block of the greatest counter, 2^64 - 1, the counter is 0 again.
    #[inline]
    fn rand(&mut self) -> [u8; 64] {
        let block = chacha_block::<ROUNDS>(self.state);
        if !chacha_increment_counter(&mut self.state) {
            self.set_counter(0);
        }
        bytes_of(&block)
    }

    fn fill_bytes<Bytes: AsMut<[u8]>>(&mut self, mut buffer: Bytes) {
        let buffer = buffer.as_mut();
        let filled = match ROUNDS {
            8 => self.fill_groups::<8>(buffer),
            12 => self.fill_groups::<12>(buffer),
            20 => self.fill_groups::<20>(buffer),
            _ => 0,
        };
        fill_by_blocks(&mut Lent(self), &mut buffer[filled..]);
    }
}

impl<const ROUNDS: u8> SeedableRng<40, 64> for ChaCha<ROUNDS> {
    /// Uses the first 32 bytes of the seed as the key and the other 8 as the nonce. The counter is
    /// 0.
    fn reseed(&mut self, seed: [u8; 40]) {
        let mut key = [0; 32];
        let mut nonce = [0; 8];
        key.copy_from_slice(&seed[..32]);
        nonce.copy_from_slice(&seed[32..]);
        self.state = chacha_init(key, nonce);
    }
}

/// Displays the name, the address and the number of rounds.
impl<const ROUNDS: u8> Display for ChaCha<ROUNDS> {
    fn fmt(&self, f: &mut Formatter<'_>) -> fmt::Result {
        write!(f, "ChaCha ({self:p}, {ROUNDS} rounds)")
    }
}

/// Shows the rounds and the counter, but not the key. The name is `ChaCha20` for any number of
/// rounds, as in `nanorand` 0.7.0.
impl<const ROUNDS: u8> Debug for ChaCha<ROUNDS> {
    fn fmt(&self, f: &mut Formatter<'_>) -> fmt::Result {
        f.debug_struct("ChaCha20")
            .field("rounds", &ROUNDS)
            .field("counter", &self.counter())
            .finish()
    }
}

// Returns the words as bytes, each in little-endian order.
fn bytes_of(words: &[u32; 16]) -> [u8; 64] {
    let mut bytes = [0; 64];
    for (place, word) in bytes.chunks_exact_mut(4).zip(words) {
        place.copy_from_slice(&word.to_le_bytes());
    }
    bytes
}

#[cfg(test)]
mod tests {
    use super::*;

    /// Across a carry of the counter, and across its end, a fill returns the same bytes as single
    /// blocks.
    #[test]
    fn counters() {
        for counter in [0, u64::from(u32::MAX) - 1, (7 << 32) - 2, u64::MAX - 1] {
            let mut blocks = ChaCha8::new_key([3; 32], [4; 8]);
            blocks.set_counter(counter);
            let mut filled = blocks.clone();
            let mut bytes = [0; 600];
            filled.fill_bytes(&mut bytes);
            for block in bytes.chunks(64) {
                assert_eq!(block, &blocks.rand()[..block.len()], "{counter}");
            }
            assert_eq!(filled.state, blocks.state, "{counter}");
            assert_eq!(filled.counter(), counter.wrapping_add(10));
        }
    }
}
