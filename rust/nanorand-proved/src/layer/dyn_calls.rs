//! All calls of `Rng` on `dyn AnyRng` itself, so that `rng: &mut dyn AnyRng` has them without `mut`
//! and without another call. Hand-written and tested, not proved.

use super::AnyRng;
use crate::choices::WeightError;
use crate::rand::Rng;
use crate::values::{RandomGen, RandomRange, RangeError};
use core::ops::RangeBounds;

/// A type whose values a `dyn AnyRng` draws: every type of this library that implements
/// [`RandomGen`], and every type of your own that implements it for all generators. Use it as the
/// bound of a type parameter:
///
/// ```
/// use nanorand_proved::{AnyRng, AnyValue, WyRand};
///
/// fn pair<T: AnyValue>(rng: &mut dyn AnyRng) -> (T, T) {
///     (rng.generate(), rng.generate())
/// }
/// let (first, second): (u8, u8) = pair(&mut WyRand::seed_from_u64(42));
/// # let _ = (first, second);
/// ```
#[cfg_attr(
    diagnostic_hints,
    diagnostic::on_unimplemented(
        message = "values of the type `{Self}` cannot be drawn from a `dyn AnyRng`",
        note = "for a type parameter, write the bound `{Self}: AnyValue`",
        note = "for a type of your own, implement `RandomGen` for all generators",
        note = "for a collection, draw its items: `rng.generate_iter().take(n).collect()`"
    )
)]
pub trait AnyValue: for<'a> RandomGen<&'a mut (dyn AnyRng + 'a), 8> {}

#[cfg_attr(do_not_recommend, diagnostic::do_not_recommend)]
impl<T: for<'a> RandomGen<&'a mut (dyn AnyRng + 'a), 8>> AnyValue for T {}

/// A type from whose ranges a `dyn AnyRng` draws values: every type of this library that implements
/// [`RandomRange`], and every type of your own that implements `Clone`, and [`RandomRange`] for all
/// generators. Use it as the bound of a type parameter, like [`AnyValue`].
#[cfg_attr(
    diagnostic_hints,
    diagnostic::on_unimplemented(
        message = "a `dyn AnyRng` draws no numbers from ranges of the type `{Self}`",
        note = "for a type parameter, write the bound `{Self}: AnyRange`",
        note = "for a type of your own, implement `RandomRange` for all generators, and `Clone`"
    )
)]
pub trait AnyRange: for<'a> RandomRange<&'a mut (dyn AnyRng + 'a), 8> + Clone {}

#[cfg_attr(do_not_recommend, diagnostic::do_not_recommend)]
impl<T: for<'a> RandomRange<&'a mut (dyn AnyRng + 'a), 8> + Clone> AnyRange for T {}

/// Each call draws as the call of [`Rng`] with the same name, and returns or panics as it does.
///
/// ```
/// use nanorand_proved::{AnyRng, ChaCha20Stream, WyRand};
///
/// fn roll(rng: &mut dyn AnyRng) -> u8 {
///     rng.range(1..=6)
/// }
///
/// let mut generators: Vec<Box<dyn AnyRng>> = vec![
///     Box::new(WyRand::seed_from_u64(42)),
///     Box::new(ChaCha20Stream::seed_from_u64(42)),
/// ];
/// let rolls: Vec<u8> = generators.iter_mut().map(|rng| roll(&mut **rng)).collect();
/// assert_eq!(rolls, [6, 5]);
/// ```
impl dyn AnyRng + '_ {
    /// Fills the slice with the next bytes, by one request. See [`Rng::fill_bytes`].
    #[inline]
    pub fn fill_bytes(&mut self, buffer: &mut [u8]) {
        self.bytes(buffer);
    }

    /// Draws a value of the type `T`. See [`Rng::generate`].
    #[inline]
    pub fn generate<T: AnyValue>(&mut self) -> T {
        Rng::generate(&mut self.rng())
    }

    /// Returns an endless iterator of values. See [`Rng::generate_iter`].
    #[inline]
    pub fn generate_iter<T: AnyValue>(&mut self) -> impl Iterator<Item = T> + '_ {
        let mut rng = self.rng();
        core::iter::repeat_with(move || Rng::generate(&mut rng))
    }

    /// Fills the slice with values. To fill a slice of bytes, call `fill_bytes`. See [`Rng::fill`].
    #[inline]
    pub fn fill<T: AnyValue>(&mut self, target: &mut [T]) {
        Rng::fill(&mut self.rng(), target);
    }

    /// Draws a number from a range. See [`Rng::generate_range`].
    ///
    /// # Errors
    ///
    /// Returns the errors of `Rng::generate_range`.
    #[inline]
    pub fn generate_range<T: AnyRange>(
        &mut self,
        range: impl RangeBounds<T>,
    ) -> Result<T, RangeError> {
        Rng::generate_range(&mut self.rng(), range)
    }

    /// Draws a number from a range. See [`Rng::generate_range_or_panic`].
    ///
    /// # Panics
    ///
    /// Panics if `Rng::generate_range_or_panic` does.
    #[inline]
    #[track_caller]
    pub fn generate_range_or_panic<T: AnyRange>(&mut self, range: impl RangeBounds<T>) -> T {
        Rng::generate_range_or_panic(&mut self.rng(), range)
    }

    /// Draws a number from a range. See [`Rng::range`].
    ///
    /// # Panics
    ///
    /// Panics if `Rng::range` does.
    #[inline]
    #[track_caller]
    pub fn range<T: AnyRange>(&mut self, range: impl RangeBounds<T>) -> T {
        Rng::range(&mut self.rng(), range)
    }

    /// Shuffles the slice. See [`Rng::shuffle`].
    ///
    /// # Errors
    ///
    /// Returns the errors of `Rng::shuffle`.
    #[inline]
    pub fn shuffle<T>(&mut self, items: &mut [T]) -> Result<(), RangeError> {
        Rng::shuffle(&mut self.rng(), items)
    }

    /// Shuffles the slice. See [`Rng::shuffle_or_panic`].
    ///
    /// # Panics
    ///
    /// Panics if `Rng::shuffle_or_panic` does.
    #[inline]
    #[track_caller]
    pub fn shuffle_or_panic<T>(&mut self, items: &mut [T]) {
        Rng::shuffle_or_panic(&mut self.rng(), items);
    }

    /// Shuffles the slice. See [`Rng::permute`].
    ///
    /// # Panics
    ///
    /// Panics if `Rng::permute` does.
    #[inline]
    #[track_caller]
    pub fn permute<T>(&mut self, items: &mut [T]) {
        Rng::permute(&mut self.rng(), items);
    }

    /// Shuffles the beginning of the slice. See [`Rng::partial_shuffle`].
    ///
    /// # Errors
    ///
    /// Returns the errors of `Rng::partial_shuffle`.
    #[inline]
    pub fn partial_shuffle<T>(&mut self, items: &mut [T], count: usize) -> Result<(), RangeError> {
        Rng::partial_shuffle(&mut self.rng(), items, count)
    }

    /// Shuffles the beginning of the slice. See [`Rng::partial_shuffle_or_panic`].
    ///
    /// # Panics
    ///
    /// Panics if `Rng::partial_shuffle_or_panic` does.
    #[inline]
    #[track_caller]
    pub fn partial_shuffle_or_panic<T>(&mut self, items: &mut [T], count: usize) {
        Rng::partial_shuffle_or_panic(&mut self.rng(), items, count);
    }

    /// Chooses an item of the slice. See [`Rng::choose`].
    ///
    /// # Errors
    ///
    /// Returns the errors of `Rng::choose`.
    #[inline]
    pub fn choose<'i, T>(&mut self, items: &'i [T]) -> Result<&'i T, RangeError> {
        Rng::choose(&mut self.rng(), items)
    }

    /// Chooses an item of the slice. See [`Rng::choose_or_panic`].
    ///
    /// # Panics
    ///
    /// Panics if `Rng::choose_or_panic` does.
    #[inline]
    #[track_caller]
    pub fn choose_or_panic<'i, T>(&mut self, items: &'i [T]) -> &'i T {
        Rng::choose_or_panic(&mut self.rng(), items)
    }

    /// Chooses an item of the slice. See [`Rng::choose_mut`].
    ///
    /// # Errors
    ///
    /// Returns the errors of `Rng::choose_mut`.
    #[inline]
    pub fn choose_mut<'i, T>(&mut self, items: &'i mut [T]) -> Result<&'i mut T, RangeError> {
        Rng::choose_mut(&mut self.rng(), items)
    }

    /// Chooses an item of the slice. See [`Rng::choose_mut_or_panic`].
    ///
    /// # Panics
    ///
    /// Panics if `Rng::choose_mut_or_panic` does.
    #[inline]
    #[track_caller]
    pub fn choose_mut_or_panic<'i, T>(&mut self, items: &'i mut [T]) -> &'i mut T {
        Rng::choose_mut_or_panic(&mut self.rng(), items)
    }

    /// Chooses an item by weight, and returns its index. See [`Rng::choose_weighted`].
    ///
    /// # Errors
    ///
    /// Returns the errors of `Rng::choose_weighted`.
    #[inline]
    pub fn choose_weighted(&mut self, weights: &[u64]) -> Result<usize, WeightError> {
        Rng::choose_weighted(&mut self.rng(), weights)
    }

    /// Chooses an item by weight, and returns its index. See [`Rng::choose_weighted_or_panic`].
    ///
    /// # Panics
    ///
    /// Panics if `Rng::choose_weighted_or_panic` does.
    #[inline]
    #[track_caller]
    pub fn choose_weighted_or_panic(&mut self, weights: &[u64]) -> usize {
        Rng::choose_weighted_or_panic(&mut self.rng(), weights)
    }

    /// Returns true with probability `numerator` / `denominator`. See [`Rng::ratio`].
    ///
    /// # Errors
    ///
    /// Returns the errors of `Rng::ratio`.
    #[inline]
    pub fn ratio(&mut self, numerator: u64, denominator: u64) -> Result<bool, RangeError> {
        Rng::ratio(&mut self.rng(), numerator, denominator)
    }

    /// Returns true with probability `numerator` / `denominator`. See [`Rng::ratio_or_panic`].
    ///
    /// # Panics
    ///
    /// Panics if `Rng::ratio_or_panic` does.
    #[inline]
    #[track_caller]
    pub fn ratio_or_panic(&mut self, numerator: u64, denominator: u64) -> bool {
        Rng::ratio_or_panic(&mut self.rng(), numerator, denominator)
    }

    /// Draws a sample without replacement. See [`Rng::sample`].
    ///
    /// # Errors
    ///
    /// Returns the errors of `Rng::sample`.
    #[inline]
    pub fn sample(&mut self, count: usize, places: &mut [usize]) -> Result<(), RangeError> {
        Rng::sample(&mut self.rng(), count, places)
    }

    /// Draws a sample without replacement. See [`Rng::sample_or_panic`].
    ///
    /// # Panics
    ///
    /// Panics if `Rng::sample_or_panic` does.
    #[inline]
    #[track_caller]
    pub fn sample_or_panic(&mut self, count: usize, places: &mut [usize]) {
        Rng::sample_or_panic(&mut self.rng(), count, places);
    }

    /// Returns true with probability `p`. See [`Rng::gen_bool`].
    ///
    /// # Panics
    ///
    /// Panics if `Rng::gen_bool` does.
    #[inline]
    #[track_caller]
    pub fn gen_bool(&mut self, p: f64) -> bool {
        Rng::gen_bool(&mut self.rng(), p)
    }

    /// Draws a letter from `A` to `Z` or `a` to `z`, or a digit. See [`Rng::alphanumeric`].
    #[inline]
    pub fn alphanumeric(&mut self) -> char {
        Rng::alphanumeric(&mut self.rng())
    }

    /// Draws a `u32`. See [`Rng::next_u32`].
    #[inline]
    pub fn next_u32(&mut self) -> u32 {
        Rng::next_u32(&mut self.rng())
    }

    /// Draws a `u64`. See [`Rng::next_u64`].
    #[inline]
    pub fn next_u64(&mut self) -> u64 {
        Rng::next_u64(&mut self.rng())
    }
}
