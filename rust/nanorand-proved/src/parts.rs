//! Parts of a stream, one for each task of a program that runs on many threads or machines.

use crate::rand::Rng;

/// The error of [`Parts::part`]: the part would end beyond the period of the generator, after which
/// its draws repeat.
#[derive(Clone, Copy, Debug, PartialEq, Eq)]
pub struct PastPeriod;

impl core::fmt::Display for PastPeriod {
    fn fmt(&self, f: &mut core::fmt::Formatter<'_>) -> core::fmt::Result {
        f.write_str("the part ends past the period of the generator")
    }
}

#[cfg(feature = "std")]
impl std::error::Error for PastPeriod {}

/// A generator whose stream can be divided into parts of equal length, one for each task. `OUTPUT`
/// is the number of bytes of its blocks.
///
/// The stream is what the generator draws from now on. It is counted in draws: a draw is what a
/// `u64` takes, which is a word of 64 bits for `WyRand` and `Pcg64`, a block of 64 bytes for
/// `ChaCha`, and eight bytes for a ChaCha stream. Part 0 is the first `draws` draws, part 1 the
/// next `draws` draws, and so on. What a task draws depends only on the stream, the length and the
/// index of its part, so tasks may run in any order, on any machine, and more than once.
///
/// Choose an odd length that no task exceeds: draws whose distance is divisible by a large power of
/// two are correlated. A method that rejects points, such as a polar method for normal numbers, has
/// no fixed number of draws, so leave ample room. The repository's `docs/SCALE.md` has the details.
///
/// The following is proved for the source of this crate's generators, and must be ensured by an
/// implementation of your own:
///
/// - No state occurs in two parts of the same length of one stream.
/// - From some draw on, each state comes again one period later.
/// - After a request (one read of n bytes), the state is one that a whole number of draws leads to,
///   or a further request of fewer than eight bytes leads to such a state. From the state before
///   the request, this number of draws is at most n / 8, rounded up, and at least 1 if n is not 0.
///
/// These statements are about the states after a whole number of draws. The states within a draw
/// are unspecified. Two different states may draw the same numbers. It is also proved that the
/// blocks of `WyRand` and `Pcg64` have no smaller period. For the blocks of ChaCha this is not
/// known.
///
/// # Examples
///
/// ```
/// use nanorand_proved::{Parts, PastPeriod, Pcg64, Rng};
///
/// // What the task of an index draws, whenever and wherever it runs.
/// fn task(index: u64) -> Result<[u64; 3], PastPeriod> {
///     let mut rng = Pcg64::seed_from_u64(42).part(index, 3)?;
///     Ok(rng.generate())
/// }
///
/// let mut whole = Pcg64::seed_from_u64(42);
/// for index in 0..10 {
///     assert_eq!(task(index)?, whole.generate::<[u64; 3]>());
/// }
/// assert_eq!(whole.part(1 << 63, 1 << 63), Err(PastPeriod)); // 2^126 draws and 2^63 more
/// # Ok::<(), PastPeriod>(())
/// ```
pub trait Parts<const OUTPUT: usize = 8>: Rng<OUTPUT> {
    /// Returns the generator at the beginning of a part, which is `index * draws` draws ahead. This
    /// generator does not change.
    ///
    /// Nothing stops a task at the end of its part: if it draws more than `draws` draws, it
    /// continues in the next part.
    ///
    /// # Errors
    ///
    /// Returns `PastPeriod` if and only if the part ends beyond the period.
    fn part(&self, index: u64, draws: u64) -> Result<Self, PastPeriod>;
}

// Returns the number of draws before a part, if the part ends within the period.
#[inline]
pub(crate) fn draws_before(index: u64, draws: u64, period: u128) -> Result<u128, PastPeriod> {
    let draws = u128::from(draws);
    let before = u128::from(index) * draws;
    if before + draws <= period {
        Ok(before)
    } else {
        Err(PastPeriod)
    }
}
