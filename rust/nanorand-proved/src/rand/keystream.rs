//! Seekable streams of ChaCha.

use crate::buffer::BufferedRng;
use crate::parts::{draws_before, Parts, PastPeriod};
use crate::rand::chacha::split_seed;
use crate::rand::chacha_groups::ChaChaGroups;
use crate::rand::split_mix::seed_from;
use crate::rand::Rng;

/// The keystream of ChaCha as one unbroken stream of bytes, of which eight blocks are computed at
/// once.
///
/// Like `ChaCha`, it is not a vetted cryptographic generator: it does not erase keys from memory,
/// does not reseed itself, and has not been audited. For keys, tokens and passwords, or if there is
/// an adversary, use a vetted generator.
///
/// # Examples
///
/// ```
/// use nanorand_proved::{ChaCha20Stream, Rng};
///
/// let mut rng = ChaCha20Stream::new_key([1; 32], [2; 8]); // or seed_from_u64, from_entropy
/// let number: u64 = rng.generate();
/// assert_eq!(rng.position(), 8);
/// rng.seek(0);
/// assert_eq!(rng.generate::<u64>(), number);
/// ```
pub type ChaChaStream<const ROUNDS: u8> = BufferedRng<ChaChaGroups<ROUNDS>, 512>;

/// A stream of ChaCha with 8 rounds, fewer than the standard's 20. Not a vetted cryptographic
/// generator: see `ChaChaStream`.
pub type ChaCha8Stream = ChaChaStream<8>;

/// A stream of ChaCha with 12 rounds, fewer than the standard's 20. Not a vetted cryptographic
/// generator: see `ChaChaStream`.
pub type ChaCha12Stream = ChaChaStream<12>;

/// A stream of ChaCha with the standard's 20 rounds. Not a vetted cryptographic generator: see
/// `ChaChaStream`.
pub type ChaCha20Stream = ChaChaStream<20>;

/// The keystream of a key and a nonce: 2^70 bytes, in blocks of 64 bytes. The bytes are numbered
/// from 0, and after the last byte the stream continues with byte 0.
///
/// Requests join without a break: two requests in a row return the bytes that one request of their
/// total size returns. An implementation of your own must ensure that. The trait fixes how a stream
/// continues, not which bytes it has for a key and a nonce. `OUTPUT` is the block size of [`Rng`],
/// not the 64 bytes of a keystream block.
pub trait Keystream<const OUTPUT: usize>: Rng<OUTPUT> {
    /// Creates the stream of this key and nonce, at byte 0. For ChaCha, an odd number of rounds
    /// does not compile.
    fn new_key(key: [u8; 32], nonce: [u8; 8]) -> Self;

    /// Creates the stream of this key and nonce, at the first byte of the block at this index,
    /// which is byte `index * 64`. For ChaCha, an odd number of rounds does not compile.
    fn at_block(key: [u8; 32], nonce: [u8; 8], index: u64) -> Self;

    /// Creates a stream, at byte 0, whose key and nonce are made from a number, which may be small.
    /// Key and nonce are 40 bytes that SplitMix64 produces, as
    /// [`ChaCha::seed_from_u64`](crate::ChaCha::seed_from_u64) describes. There are only 2^64 such
    /// keys, so they keep no secret. For ChaCha, an odd number of rounds does not compile.
    #[must_use]
    fn seed_from_u64(number: u64) -> Self {
        let (key, nonce) = split_seed(&seed_from(number));
        Self::new_key(key, nonce)
    }

    /// Moves to this byte of the stream, forward or back. Byte 2^70 is byte 0 again. Buffered bytes
    /// are dropped.
    ///
    /// The state is then the same as after one request, made at byte 0, for all bytes before this
    /// one.
    fn seek(&mut self, byte: u128);

    /// Returns the number of the next byte, for a stream that was created by `new_key` or
    /// `at_block` or moved by `seek`. A request for n bytes adds n to it, modulo 2^70.
    ///
    /// A buffered generator that was created by `BufferedRng::with_rest`, or that was reseeded, may
    /// hold buffered bytes of another stream, or of none. They are delivered next, and the number
    /// counts them too, until a `seek`.
    fn position(&self) -> u128;
}

/// Creates the stream of this key and nonce, at byte 0, as `Keystream::new_key` does, without the
/// need to import that trait. An odd `ROUNDS` does not compile.
#[must_use]
pub fn chacha_stream<const ROUNDS: u8>(key: [u8; 32], nonce: [u8; 8]) -> ChaChaStream<ROUNDS> {
    let () = crate::layer::Rounds::<ROUNDS>::EVEN;

    Keystream::new_key(key, nonce)
}

/// Creates the stream of this key and nonce, at the first byte of the block at this index, as
/// `Keystream::at_block` does, without the need to import that trait. An odd `ROUNDS` does not
/// compile.
#[must_use]
pub fn chacha_stream_at<const ROUNDS: u8>(
    key: [u8; 32],
    nonce: [u8; 8],
    index: u64,
) -> ChaChaStream<ROUNDS> {
    let () = crate::layer::Rounds::<ROUNDS>::EVEN;

    Keystream::at_block(key, nonce, index)
}

/// Creates the stream of a number, which may be small, as [`Keystream::seed_from_u64`] does,
/// without the need to import that trait. An odd `ROUNDS` does not compile.
#[must_use]
pub fn chacha_stream_from_u64<const ROUNDS: u8>(number: u64) -> ChaChaStream<ROUNDS> {
    let () = crate::layer::Rounds::<ROUNDS>::EVEN;

    let (key, nonce) = split_seed(&seed_from(number));
    chacha_stream(key, nonce)
}

impl<const ROUNDS: u8> Keystream<512> for BufferedRng<ChaChaGroups<ROUNDS>, 512> {
    fn new_key(key: [u8; 32], nonce: [u8; 8]) -> Self {
        BufferedRng::new(ChaChaGroups::new_key(key, nonce))
    }

    fn at_block(key: [u8; 32], nonce: [u8; 8], index: u64) -> Self {
        BufferedRng::new(ChaChaGroups::at(key, nonce, index))
    }

    fn seek(&mut self, byte: u128) {
        *self = stream_from(&self.inner().at_index(0), byte);
    }

    fn position(&self) -> u128 {
        let ahead = u128::from(self.inner().counter()) * 64;
        (ahead + (1 << 70) - self.buffered() as u128) % (1 << 70)
    }
}

/// A draw is eight bytes. The period is 2^67 draws.
impl<const ROUNDS: u8> Parts<512> for BufferedRng<ChaChaGroups<ROUNDS>, 512> {
    fn part(&self, index: u64, draws: u64) -> Result<Self, PastPeriod> {
        let bytes = draws_before(index, draws, 1 << 67)? * 8;
        let kept = self.rest();
        let groups = self.inner();
        if bytes <= kept.len() as u128 {
            Ok(stream_with(groups, &kept[bytes as usize..]))
        } else {
            Ok(stream_from(groups, bytes - kept.len() as u128))
        }
    }
}

// Returns a stream that continues with these buffered bytes and then these groups.
fn stream_with<const ROUNDS: u8>(
    groups: &ChaChaGroups<ROUNDS>,
    rest: &[u8],
) -> BufferedRng<ChaChaGroups<ROUNDS>, 512> {
    let groups = groups.at_index(groups.counter());
    BufferedRng::with_rest(groups, rest).unwrap()
}

// Returns the stream that begins this many bytes after the start of these groups.
fn stream_from<const ROUNDS: u8>(
    groups: &ChaChaGroups<ROUNDS>,
    bytes: u128,
) -> BufferedRng<ChaChaGroups<ROUNDS>, 512> {
    let blocks = bytes / 512 % (1 << 61) * 8;
    let index = groups.counter().wrapping_add(blocks as u64);
    let mut stream = BufferedRng::new(groups.at_index(index));
    let mut skipped = [0; 512];
    stream.fill_bytes(&mut skipped[..(bytes % 512) as usize]);
    stream
}
