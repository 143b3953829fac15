//! The generators, and the traits that they implement.

#[cfg(feature = "chacha")]
pub mod chacha;
#[cfg(feature = "pcg64")]
pub mod pcg64;
#[cfg(all(
    feature = "zeroize",
    any(feature = "wyrand", feature = "pcg64", feature = "chacha")
))]
mod wiped;
#[cfg(feature = "wyrand")]
pub mod wyrand;

use crate::adapter::Lent;
use crate::gen::{RandomGen, RandomRange};
#[cfg(feature = "chacha")]
pub use chacha::{ChaCha, ChaCha12, ChaCha20, ChaCha8};
use core::ops::RangeBounds;
use nanorand_proved::rand::fill_by_blocks;
use nanorand_proved::shuffles::shuffle_full;
use nanorand_proved::RangeError;
#[cfg(feature = "pcg64")]
pub use pcg64::Pcg64;
#[cfg(feature = "wyrand")]
pub use wyrand::WyRand;

/// A random generator that produces blocks of `OUTPUT` bytes.
///
/// `OUTPUT` is the number of bytes of a block. It must be at least 1: requests to a generator with
/// blocks of 0 bytes do not compile. To write your own generator, implement `rand`.
pub trait Rng<const OUTPUT: usize>: Clone {
    /// Draws the next block.
    fn rand(&mut self) -> [u8; OUTPUT];

    /// Draws a value of a type, as [`RandomGen`] describes.
    #[inline]
    fn generate<T: RandomGen<Self, OUTPUT>>(&mut self) -> T {
        T::random(self)
    }

    /// Fills the slice with the next blocks. What is left of the last block is dropped.
    #[inline]
    fn fill_bytes<Bytes: AsMut<[u8]>>(&mut self, mut buffer: Bytes) {
        fill_by_blocks(&mut Lent(self), buffer.as_mut());
    }

    /// Fills the slice with values, drawn one after another. To fill a slice of bytes, call
    /// `fill_bytes`: `fill` draws a block for each byte, unless the generator has a buffer.
    #[inline]
    fn fill<T, Items>(&mut self, mut target: Items)
    where
        T: RandomGen<Self, OUTPUT>,
        Items: AsMut<[T]>,
    {
        for item in target.as_mut() {
            *item = self.generate();
        }
    }

    /// Draws a number from the range. Each number is produced by the same number of words (random
    /// integers of the type's width).
    ///
    /// # Panics
    ///
    /// Panics if the range is empty, or if 128 words in a row were rejected, which happens with
    /// probability below 10^-38. These words stay consumed.
    #[inline]
    #[track_caller]
    fn generate_range<T, Bounds>(&mut self, range: Bounds) -> T
    where
        T: RandomRange<Self, OUTPUT>,
        Bounds: RangeBounds<T>,
    {
        T::random_range(self, range)
    }

    /// Shuffles the items: for each index, from 0 up, swaps the item there with the one at an index
    /// drawn from the whole slice.
    ///
    /// As in `nanorand` 0.7.0, several lists of indices produce the same permutation, so the
    /// permutations are not equally likely. [`nanorand_proved::Rng::shuffle`] is unbiased.
    ///
    /// # Panics
    ///
    /// Panics if 128 words in a row were rejected for one index. The swaps before that stay, and
    /// the words stay consumed.
    #[inline]
    #[track_caller]
    fn shuffle<T, Items: AsMut<[T]>>(&mut self, mut target: Items) {
        if let Err(error) = shuffle_full(&mut Lent(self), target.as_mut()) {
            refused(error);
        }
    }
}

#[cold]
#[track_caller]
fn refused(error: RangeError) -> ! {
    panic!("{error}")
}

/// A generator that can be reseeded from `SEED_SIZE` bytes. `OUTPUT` is the number of bytes of a
/// block.
pub trait SeedableRng<const SEED_SIZE: usize, const OUTPUT: usize>: Rng<OUTPUT> {
    /// Reseeds the generator with these bytes.
    fn reseed(&mut self, seed: [u8; SEED_SIZE]);
}
