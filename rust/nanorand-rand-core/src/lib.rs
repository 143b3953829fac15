//! The generators of `nanorand-proved` with the traits of `rand_core` 0.6, which `rand` 0.8 uses.
//!
//! The example needs the package `rand_core` too: `cargo add rand_core@0.6`. A program that has
//! `rand` 0.8 may import the same traits from it instead: `use rand::{RngCore, SeedableRng}`.
//!
//! ```
//! use nanorand_proved::WyRand;
//! use nanorand_proved_rand_core::Core;
//! use rand_core::{RngCore, SeedableRng};
//!
//! let mut rng = Core(WyRand::seed_from_u64(42));
//! assert_eq!(rng.next_u64(), 6_327_169_416_285_365_978);
//! assert_eq!(rng, Core::from_seed(rng.0.seed().to_le_bytes()));
//! ```
//!
//! [`Core`] also works with your own generator. No generator implements `CryptoRng`: for keys,
//! tokens and passwords, or if there is an adversary, use a vetted cryptographic generator.
//!
//! `from_seed` of `WyRand` and `Pcg64` uses the bytes as the state, without mixing them: generators
//! with neighbouring seeds draw correlated numbers. `seed_from_u64` mixes its number. It calls the
//! generator's own function, which uses SplitMix64, in place of the one that `rand_core` provides,
//! which uses PCG32.
//!
//! For many numbers of ChaCha, wrap a stream, such as
//! [`ChaCha20Stream`](nanorand_proved::ChaCha20Stream). It drops no bytes, whereas `ChaCha`
//! computes a block of 64 bytes for each number.
#![no_std]
#![forbid(unsafe_code)]
#![deny(missing_docs)]

use core::fmt;
use nanorand_proved::{ChaCha, ChaChaStream, Pcg64, Rng, WyRand};
use rand_core::{Error, RngCore, SeedableRng};

/// Adapts a generator to [`RngCore`].
///
/// `OUTPUT` is the number of bytes of the generator's blocks: 8 for `WyRand` and `Pcg64`, 64 for
/// `ChaCha`, and 512 for a ChaCha stream. The compiler infers it.
///
/// `Default` wraps the default of the inner generator. The generators of `nanorand-proved` have one
/// with its feature `std`: it takes its seed from the operating system, and panics if there is
/// none. `==` and `Hash` are those of the inner generator.
#[derive(Clone, Debug, Default, Hash, PartialEq, Eq)]
pub struct Core<G, const OUTPUT: usize>(pub G);

/// Wraps the generator. Nothing is drawn.
impl<G: Rng<OUTPUT>, const OUTPUT: usize> From<G> for Core<G, OUTPUT> {
    #[inline]
    fn from(rng: G) -> Self {
        Core(rng)
    }
}

impl<G: Rng<OUTPUT>, const OUTPUT: usize> RngCore for Core<G, OUTPUT> {
    #[inline]
    fn next_u32(&mut self) -> u32 {
        self.0.next_u32()
    }

    #[inline]
    fn next_u64(&mut self) -> u64 {
        self.0.next_u64()
    }

    #[inline]
    fn fill_bytes(&mut self, bytes: &mut [u8]) {
        self.0.fill_bytes(bytes);
    }

    /// Never returns an error.
    #[inline]
    fn try_fill_bytes(&mut self, bytes: &mut [u8]) -> Result<(), Error> {
        self.0.fill_bytes(bytes);
        Ok(())
    }
}

impl SeedableRng for Core<WyRand, 8> {
    type Seed = [u8; 8];

    fn from_seed(seed: [u8; 8]) -> Self {
        Core(WyRand::from_seed(seed))
    }

    fn seed_from_u64(number: u64) -> Self {
        Core(WyRand::seed_from_u64(number))
    }
}

impl SeedableRng for Core<Pcg64, 8> {
    type Seed = [u8; 16];

    fn from_seed(seed: [u8; 16]) -> Self {
        Core(Pcg64::from_seed(seed))
    }

    fn seed_from_u64(number: u64) -> Self {
        Core(Pcg64::seed_from_u64(number))
    }
}

/// The seed of a `ChaCha` or of a ChaCha stream: 32 bytes of key and 8 bytes of nonce. `rand_core`
/// requires that a seed implements `Default`, and an array of this length does not.
///
/// `AsRef` is for `rand_core` 0.9 and later, which require it of a seed.
#[derive(Clone, Copy)]
pub struct ChaChaSeed(pub [u8; 40]);

impl Default for ChaChaSeed {
    fn default() -> Self {
        ChaChaSeed([0; 40])
    }
}

/// Writes `ChaChaSeed(..)`, since the bytes hold the key.
impl fmt::Debug for ChaChaSeed {
    fn fmt(&self, f: &mut fmt::Formatter<'_>) -> fmt::Result {
        f.write_str("ChaChaSeed(..)")
    }
}

impl AsRef<[u8]> for ChaChaSeed {
    fn as_ref(&self) -> &[u8] {
        &self.0
    }
}

impl AsMut<[u8]> for ChaChaSeed {
    fn as_mut(&mut self) -> &mut [u8] {
        &mut self.0
    }
}

impl<const ROUNDS: u8> SeedableRng for Core<ChaCha<ROUNDS>, 64> {
    type Seed = ChaChaSeed;

    fn from_seed(seed: ChaChaSeed) -> Self {
        Core(ChaCha::from_seed(seed.0))
    }

    fn seed_from_u64(number: u64) -> Self {
        Core(ChaCha::seed_from_u64(number))
    }
}

/// The stream begins at byte 0 of its key and nonce.
impl<const ROUNDS: u8> SeedableRng for Core<ChaChaStream<ROUNDS>, 512> {
    type Seed = ChaChaSeed;

    fn from_seed(seed: ChaChaSeed) -> Self {
        Core(ChaChaStream::from_seed(seed.0))
    }

    fn seed_from_u64(number: u64) -> Self {
        Core(ChaChaStream::seed_from_u64(number))
    }
}
