//! Seeds from bytes, and seeds from the operating system. The latter are not proved, since the
//! bytes come from the system.

use crate::rand::{chacha_stream_from_u64, ChaCha, ChaChaStream, Pcg64, WyRand};

#[cfg(feature = "std")]
use crate::{entropy::EntropyError, system};
#[cfg(feature = "std")]
use std::io;

impl WyRand {
    /// Creates a generator whose seed is these bytes, in little-endian order. They are not mixed:
    /// see [`new_seed`](Self::new_seed).
    #[inline]
    #[must_use]
    pub const fn from_seed(seed: [u8; 8]) -> Self {
        Self::new_seed(u64::from_le_bytes(seed))
    }

    /// Creates a generator whose seed is 8 random bytes from the operating system.
    ///
    /// Nothing is proved about the randomness of these bytes. They come from `getrandom`,
    /// `getentropy`, `CCRandomGenerateBytes`, `random_get` or `ProcessPrng`, depending on the
    /// system.
    ///
    /// # Errors
    ///
    /// Returns the error of the system call, or an error of kind `Unsupported` if the system has
    /// none of these calls.
    #[cfg(feature = "std")]
    #[doc(alias = "thread_rng")]
    pub fn from_entropy() -> io::Result<Self> {
        system_seed().map(Self::from_seed)
    }
}

impl Pcg64 {
    /// Creates a generator whose seed is these bytes, in little-endian order. They are not mixed:
    /// see [`new_seed`](Self::new_seed). `state` and `inc` are 0.
    #[inline]
    #[must_use]
    pub const fn from_seed(seed: [u8; 16]) -> Self {
        Self::new_seed(u128::from_le_bytes(seed))
    }

    /// Creates a generator whose seed is 16 random bytes from the operating system.
    ///
    /// Nothing is proved about the randomness of these bytes. They come from `getrandom`,
    /// `getentropy`, `CCRandomGenerateBytes`, `random_get` or `ProcessPrng`, depending on the
    /// system.
    ///
    /// # Errors
    ///
    /// Returns the error of the system call, or an error of kind `Unsupported` if the system has
    /// none of these calls.
    #[cfg(feature = "std")]
    pub fn from_entropy() -> io::Result<Self> {
        system_seed().map(Self::from_seed)
    }
}

impl<const ROUNDS: u8> ChaCha<ROUNDS> {
    /// Creates a generator whose key is the first 32 of these bytes and whose nonce is the other 8,
    /// with the counter 0. An odd `ROUNDS` does not compile.
    #[must_use]
    pub const fn from_seed(seed: [u8; 40]) -> Self {
        Self::new_key(part(&seed, 0), part(&seed, 32))
    }

    /// Creates a generator whose key and nonce are 40 random bytes from the operating system.
    ///
    /// Nothing is proved about the randomness of these bytes. They come from `getrandom`,
    /// `getentropy`, `CCRandomGenerateBytes`, `random_get` or `ProcessPrng`, depending on the
    /// system.
    ///
    /// # Errors
    ///
    /// Returns the error of the system call, or an error of kind `Unsupported` if the system has
    /// none of these calls.
    #[cfg(feature = "std")]
    pub fn from_entropy() -> io::Result<Self> {
        system_seed().map(Self::from_seed)
    }
}

impl<const ROUNDS: u8> ChaChaStream<ROUNDS> {
    /// Creates a stream, at byte 0, from a number, which may be small: see
    /// [`ChaCha::seed_from_u64`](crate::ChaCha::seed_from_u64). An odd `ROUNDS` does not compile.
    #[must_use]
    pub fn seed_from_u64(number: u64) -> Self {
        chacha_stream_from_u64(number)
    }

    /// Creates a stream whose key is the first 32 of these bytes and whose nonce is the other 8, at
    /// byte 0. An odd `ROUNDS` does not compile.
    #[must_use]
    pub fn from_seed(seed: [u8; 40]) -> Self {
        Self::new_key(part(&seed, 0), part(&seed, 32))
    }

    /// Creates a stream whose key and nonce are 40 random bytes from the operating system.
    ///
    /// Nothing is proved about the randomness of these bytes. They come from `getrandom`,
    /// `getentropy`, `CCRandomGenerateBytes`, `random_get` or `ProcessPrng`, depending on the
    /// system.
    ///
    /// # Errors
    ///
    /// Returns the error of the system call, or an error of kind `Unsupported` if the system has
    /// none of these calls.
    #[cfg(feature = "std")]
    pub fn from_entropy() -> io::Result<Self> {
        system_seed().map(Self::from_seed)
    }
}

// Returns a part of a seed. It also runs in constants, where Rust 1.63 cannot copy slices.
const fn part<const SIZE: usize>(seed: &[u8; 40], first: usize) -> [u8; SIZE] {
    let mut bytes = [0; SIZE];
    let mut place = 0;
    while place < SIZE {
        bytes[place] = seed[first + place];
        place += 1;
    }
    bytes
}

// Returns random bytes of the operating system, by one call of `system::fill`.
#[cfg(feature = "std")]
fn system_seed<const SIZE: usize>() -> io::Result<[u8; SIZE]> {
    let mut seed = [0; SIZE];
    system::fill(&mut seed)?;
    Ok(seed)
}

/// Converts an error of `from_entropy`: to `Unavailable` if its kind is `Unsupported`, and to
/// `Fault` otherwise.
#[cfg(feature = "std")]
impl From<io::Error> for EntropyError {
    fn from(error: io::Error) -> Self {
        match error.kind() {
            io::ErrorKind::Unsupported => EntropyError::Unavailable,
            _ => EntropyError::Fault,
        }
    }
}
