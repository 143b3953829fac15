//! The calls of `Keystream` as methods of the streams of ChaCha, so that a program need not import
//! that trait. Hand-written and tested, not proved.

use crate::rand::{chacha_stream, chacha_stream_at, ChaChaStream, Keystream};

impl<const ROUNDS: u8> ChaChaStream<ROUNDS> {
    /// Creates the stream of this key and nonce, at byte 0. An odd `ROUNDS` does not compile.
    #[must_use]
    pub fn new_key(key: [u8; 32], nonce: [u8; 8]) -> Self {
        chacha_stream(key, nonce)
    }

    /// Creates the stream of this key and nonce, at the first byte of the block at this index,
    /// which is byte `index * 64`. An odd `ROUNDS` does not compile.
    #[must_use]
    pub fn at_block(key: [u8; 32], nonce: [u8; 8], index: u64) -> Self {
        chacha_stream_at(key, nonce, index)
    }

    /// Returns the key, as 32 bytes. To store a stream, store its key, its nonce and its
    /// `position`. `new_key` and `seek` restore it.
    #[must_use]
    pub fn key(&self) -> [u8; 32] {
        self.inner().key()
    }

    /// Returns the nonce, as 8 bytes.
    #[must_use]
    pub fn nonce(&self) -> [u8; 8] {
        self.inner().nonce()
    }

    /// Moves to this byte of the stream, forward or back, as [`Keystream::seek`] does. Byte 2^70 is
    /// byte 0 again. Buffered bytes are dropped.
    pub fn seek(&mut self, byte: u128) {
        Keystream::seek(self, byte);
    }

    /// Returns the number of the next byte of the stream, as [`Keystream::position`] does.
    #[must_use]
    pub fn position(&self) -> u128 {
        Keystream::position(self)
    }
}
