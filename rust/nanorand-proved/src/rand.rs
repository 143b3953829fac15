//! The generators, and the traits that they implement.

pub mod chacha;
pub mod chacha_groups;
mod halves;
mod hexadecimal;
pub mod keystream;
pub mod pcg64;
mod split_mix;
pub mod wyrand;

use crate::choices::WeightError;
use crate::layer::{refused, refused_for, refused_range, GenerateIter, Lent};
use crate::swap::swap;
use crate::values::word::{draw_below, pick_below, pick_counted, rejected, MAX_WORDS};
use crate::values::{RandomGen, RandomRange, RangeError};
use crate::{choices, samples, shuffles};
pub use chacha::{ChaCha, ChaCha12, ChaCha20, ChaCha8};
pub use chacha_groups::ChaChaGroups;
use core::ops::RangeBounds;
pub use keystream::{
    chacha_stream, chacha_stream_at, chacha_stream_from_u64, ChaCha12Stream, ChaCha20Stream,
    ChaCha8Stream, ChaChaStream, Keystream,
};
pub use pcg64::Pcg64;
pub use wyrand::WyRand;

/// A random generator that produces blocks of `OUTPUT` bytes.
///
/// `OUTPUT` is the number of bytes of a block: 8 for `WyRand` and `Pcg64`, 64 for `ChaCha`, and 512
/// for a ChaCha stream. It is at least 1: blocks of 0 bytes do not compile. A *request* is one read
/// of n bytes. A *word* is a random integer of N bits, read by one request of N / 8 bytes in
/// little-endian order.
///
/// To write your own generator, implement `rand`, which returns a block. Each request then starts
/// with a new block, and drops what is left of its last block. Wrap the generator in a
/// [`BufferedRng`](crate::BufferedRng) to join the requests without a break. If you also implement
/// `fill_bytes`, it must fill the slice with the same bytes as the blocks.
///
/// ```
/// use nanorand_proved::{RangeError, Rng};
///
/// struct XorShift(u64); // not 0
///
/// impl Rng<8> for XorShift {
///     fn rand(&mut self) -> [u8; 8] {
///         self.0 ^= self.0 << 13;
///         self.0 ^= self.0 >> 7;
///         self.0 ^= self.0 << 17;
///         self.0.to_le_bytes()
///     }
/// }
///
/// let pips: u8 = XorShift(1).generate_range(1..=6)?;
/// # let _ = pips;
/// # Ok::<(), RangeError>(())
/// ```
///
/// # Calls that return an error, and calls that panic
///
/// A call that can fail returns a `Result`. Each has a twin that panics instead, with `_or_panic`
/// at the end of its name: [`choose`](Self::choose) and
/// [`choose_or_panic`](Self::choose_or_panic). The two most frequent twins have a short name as
/// well: [`range`](Self::range) and [`permute`](Self::permute).
///
/// # Functions that take any generator
///
/// A function that takes any generator is written in one of these ways:
///
/// - `fn f(rng: &mut dyn AnyRng)`: a trait object, which has all calls of this trait. There is no
///   `dyn Rng`, since these methods are generic. See [`AnyRng`](crate::AnyRng).
/// - `struct Game<R> {..}` and `impl<R: AnyRng> Game<R>`: generic without a block size. The calls
///   are those of `self.rng.rng()`; an optimized build compiles them for the generator.
/// - `fn f<R: Rng<OUTPUT>, const OUTPUT: usize>(rng: &mut R)`: generic with the block size. A
///   struct then needs it as a parameter too: `struct Game<R, const OUTPUT: usize>`.
///
/// `R: Rng` alone means `R: Rng<8>`: it takes `WyRand` and `Pcg64`, but no ChaCha stream. `&mut R`
/// is a generator too, so pass a generator by reference where one is expected.
///
/// # Errors of the compiler
///
/// - E0599, "no method named `range` found for type parameter `R`", or, for a parameter
///   `rng: &mut R`, "the method `range` exists for mutable reference `&mut R`, but its trait bounds
///   were not satisfied", with the help `R: AnyRng + Rng`: ignore this help, and call
///   `rng.rng().range(..)`.
/// - E0207, "the const parameter `N` is not constrained": a struct needs `N` as a parameter of its
///   own, or `R: AnyRng` in place of `R: Rng<N>`.
/// - E0277, "the trait `Parts` is not implemented" for a stream: `R: Parts` alone is `R: Parts<8>`.
///   Write `fn f<R: Parts<OUTPUT>, const OUTPUT: usize>`.
/// - E0107, "missing generics for trait `SeedableRng`": that trait is for seeds that are arrays of
///   bytes, whose length differs from generator to generator. To make any generator from a number,
///   take a function: `impl Fn(u64) -> R`.
/// - E0499, "cannot borrow `*self` as mutable more than once", where `self.rng.rng()` is kept: make
///   the helper a function that takes `rng: &mut dyn AnyRng`.
/// - E0308, "expected `&mut dyn AnyRng`, found `RefMut`": pass `&mut *cell.borrow_mut()`.
/// - E0277, "`dyn AnyRng` is not a generator with blocks of _ bytes", at a function such as
///   [`samples::reservoir`]: pass `&mut rng.rng()` in place of `rng`.
/// - E0659, "`rand` is ambiguous": `use nanorand_proved::*` imports the module
///   [`rand`](crate::rand) too, which hides the crate `rand`. Import names instead, or write
///   `use ::rand::..`.
/// - E0308, "expected `&[str]`, found `&[&str]`", at `choose`: write `*rng.choose_or_panic(names)`,
///   or give the type, `rng.choose_or_panic::<&str>(names)`.
#[cfg_attr(
    diagnostic_hints,
    diagnostic::on_unimplemented(
        message = "`{Self}` is not a generator with blocks of {OUTPUT} bytes",
        note = "`R: Rng` alone is `R: Rng<8>`; `R: AnyRng` takes any generator: call `rng.rng().range(1..=6)`"
    )
)]
pub trait Rng<const OUTPUT: usize = 8>: Sized {
    /// Draws the next block.
    fn rand(&mut self) -> [u8; OUTPUT];

    /// Fills the slice with the next bytes, by one request. An empty slice draws nothing.
    #[inline]
    fn fill_bytes(&mut self, buffer: &mut [u8]) {
        fill_by_blocks(self, buffer);
    }

    /// Draws a value of the type `T`. [`RandomGen`] lists the types, and what each takes from the
    /// stream.
    ///
    /// ```
    /// use nanorand_proved::{Rng, WyRand};
    ///
    /// let mut rng = WyRand::seed_from_u64(42);
    /// let (byte, coin): (u8, bool) = rng.generate();
    /// let part = rng.generate::<f64>(); // from 0 to below 1
    /// assert_eq!((byte, coin), (218, true));
    /// assert!((0.0..1.0).contains(&part));
    /// ```
    #[inline(always)]
    #[doc(alias = "gen", alias = "random")]
    fn generate<T: RandomGen<Self, OUTPUT>>(&mut self) -> T {
        T::random(self)
    }

    /// Fills the slice with values, one request per item. **For bytes, call
    /// [`fill_bytes`](Self::fill_bytes),** which makes one request for the whole slice.
    ///
    /// The values are drawn in the order of the items, each by a call of `generate`. An empty slice
    /// draws nothing. A generator without a buffer draws a whole block for each request, even for a
    /// single byte: `fill` of 32 bytes takes 32 blocks of `ChaCha20`, and `fill_bytes` takes one.
    fn fill<T: RandomGen<Self, OUTPUT>>(&mut self, target: &mut [T]) {
        for item in target.iter_mut() {
            *item = self.generate();
        }
    }

    /// Draws a number from a range such as `1..=6` or `..10`, or a value of a type of your own
    /// within two bounds.
    ///
    /// ```
    /// use nanorand_proved::{RangeError, Rng, WyRand};
    ///
    /// let mut rng = WyRand::seed_from_u64(42);
    /// assert_eq!(rng.generate_range::<u64>(1..=6), Ok(3));
    /// assert_eq!(rng.generate_range(5..5_u8), Err(RangeError::Empty));
    /// ```
    ///
    /// Each number of an integer range is produced by the same number of words, by the method of
    /// Daniel Lemire ("Fast Random Integer Generation in an Interval", 2019). [`RandomRange`]
    /// describes the ranges of `char` and of floats. A type of your own defines what its bounds
    /// mean, and when it returns each error.
    ///
    /// # Errors
    ///
    /// The types of this library return `Empty` if the range is empty; nothing is drawn then. They
    /// return `Exhausted` if 128 words in a row were rejected; these words stay consumed.
    #[inline(always)]
    #[doc(alias = "gen_range", alias = "random_range")]
    fn generate_range<T: RandomRange<Self, OUTPUT> + Clone>(
        &mut self,
        range: impl RangeBounds<T>,
    ) -> Result<T, RangeError> {
        T::random_range(
            self,
            range.start_bound().cloned(),
            range.end_bound().cloned(),
        )
    }

    /// Shuffles the slice: for each index i, from 0 up, draws an index from i to the last one, and
    /// swaps the items at i and at that index.
    ///
    /// This is the Fisher-Yates shuffle (1938) in the form of Richard Durstenfeld ("Algorithm 235:
    /// Random permutation", 1964), running from the first index up. The result is a permutation of
    /// the items. Each permutation of the indices is produced by exactly one sequence of drawn
    /// indices. The time is O(n) for n items.
    ///
    /// ```
    /// use nanorand_proved::{RangeError, Rng, WyRand};
    ///
    /// let mut items = [1, 2, 3, 4, 5];
    /// WyRand::seed_from_u64(42).shuffle(&mut items)?;
    /// assert_eq!(items, [2, 5, 4, 3, 1]);
    /// # Ok::<(), RangeError>(())
    /// ```
    ///
    /// # Errors
    ///
    /// Returns `Exhausted` if 128 words in a row were rejected for one index. The swaps before that
    /// stay, and the words stay consumed. An empty slice draws nothing.
    #[inline]
    fn shuffle<T>(&mut self, target: &mut [T]) -> Result<(), RangeError> {
        let count = target.len();
        for place in 0..count {
            let left = (count - place) as u64;
            let mut word = [0; 8];
            self.fill_bytes(&mut word);
            let mut ahead = pick_below(left, 64, u64::from_le_bytes(word));
            if ahead.is_none() {
                let rejects = rejected(left, 64);
                let mut drawn = 1;
                while ahead.is_none() & (drawn < MAX_WORDS) {
                    let mut word = [0; 8];
                    self.fill_bytes(&mut word);
                    ahead = pick_counted(left, 64, rejects, u64::from_le_bytes(word));
                    drawn += 1;
                }
            }
            match ahead {
                Some(ahead) => swap(target, place, place + ahead as usize),
                None => return Err(RangeError::Exhausted),
            }
        }
        Ok(())
    }

    /// Shuffles the beginning of the slice, as [`partial_shuffle`](shuffles::partial_shuffle) does.
    /// The first `count` items are then a random selection from all items, in random order. Unlike
    /// in `rand`, the call does not return the two parts of the slice.
    ///
    /// ```
    /// use nanorand_proved::{RangeError, Rng, WyRand};
    ///
    /// let mut deck: Vec<u8> = (0..52).collect();
    /// WyRand::seed_from_u64(42).partial_shuffle(&mut deck, 5)?;
    /// let (hand, rest) = deck.split_at(5);
    /// assert_eq!((hand, rest.len()), (&[17, 42, 34, 5, 2][..], 47));
    /// # Ok::<(), RangeError>(())
    /// ```
    ///
    /// # Errors
    ///
    /// Returns `Exhausted` if 128 words in a row were rejected for one index. The swaps before that
    /// stay, and the words stay consumed. If `count` is 0 or the slice is empty, nothing is drawn.
    #[inline]
    #[doc(alias = "choose_multiple")]
    fn partial_shuffle<T>(&mut self, items: &mut [T], count: usize) -> Result<(), RangeError> {
        shuffles::partial_shuffle(self, items, count)
    }

    /// Chooses an item of the slice. Each item is chosen by the same number of words.
    ///
    /// If the items are references, such as `&str`, and the compiler expects one as the result,
    /// give their type: `rng.choose::<&str>(&names)`.
    ///
    /// ```
    /// use nanorand_proved::{Rng, WyRand};
    ///
    /// fn colour(rng: &mut WyRand) -> &'static str {
    ///     rng.choose_or_panic::<&str>(&["red", "green", "blue"])
    /// }
    /// # let _ = colour(&mut WyRand::seed_from_u64(42));
    /// ```
    ///
    /// # Errors
    ///
    /// Returns `Empty` if the slice is empty; nothing is drawn then. Returns `Exhausted` if 128
    /// words in a row were rejected; they stay consumed.
    #[inline]
    #[doc(alias = "choice")]
    fn choose<'a, T>(&mut self, items: &'a [T]) -> Result<&'a T, RangeError> {
        choices::choose(self, items)
    }

    /// Chooses an item of the slice as `choose` does, and returns a mutable reference to it.
    ///
    /// # Errors
    ///
    /// Returns `Empty` if the slice is empty; nothing is drawn then. Returns `Exhausted` if 128
    /// words in a row were rejected; they stay consumed.
    #[inline]
    fn choose_mut<'a, T>(&mut self, items: &'a mut [T]) -> Result<&'a mut T, RangeError> {
        choices::choose_mut(self, items)
    }

    /// Chooses an item by weight, and returns its index: `weights[i]` is the weight of item i. Each
    /// call takes time O(n) for n weights, since it adds them up.
    ///
    /// ```
    /// use nanorand_proved::choices::WeightError;
    /// use nanorand_proved::{Rng, WyRand};
    ///
    /// let mut rng = WyRand::seed_from_u64(42);
    /// let index = rng.choose_weighted(&[5, 0, 1])?; // 0 five times in six, otherwise 2
    /// assert_ne!(index, 1);
    /// # Ok::<(), WeightError>(())
    /// ```
    ///
    /// # Errors
    ///
    /// Returns `NoWeight` if there are no weights or all of them are 0, `TooHeavy` if their sum is
    /// 2^64 or more, and `Exhausted` if 128 words in a row were rejected. After `Exhausted` the 128
    /// words stay consumed. After any other error nothing was drawn.
    #[inline]
    #[doc(alias = "WeightedIndex")]
    fn choose_weighted(&mut self, weights: &[u64]) -> Result<usize, WeightError> {
        choices::choose_weighted(self, weights)
    }

    /// Returns true with probability `numerator` / `denominator`, and always if `numerator` is
    /// `denominator` or more.
    ///
    /// # Errors
    ///
    /// Returns `Empty` if `denominator` is 0; nothing is drawn then. Returns `Exhausted` if 128
    /// words in a row were rejected; they stay consumed.
    #[inline]
    #[doc(alias = "gen_ratio", alias = "random_ratio")]
    fn ratio(&mut self, numerator: u64, denominator: u64) -> Result<bool, RangeError> {
        choices::ratio(self, numerator, denominator)
    }

    /// Draws a sample without replacement from the numbers 0, 1, .., `count` - 1 (so `count` is the
    /// size of the population), one number into each slot (item) of `places`, as
    /// [`sample`](samples::sample) does.
    ///
    /// The order of the slots is not random, unlike that of `choose_multiple` of a slice in `rand`:
    /// [`permute`](Self::permute) them if it matters. The expected time is O(k) for k slots;
    /// without the feature `std`, or without memory for a table, it is O(k^2). If there are no
    /// slots, nothing is drawn.
    ///
    /// ```
    /// use nanorand_proved::{RangeError, Rng, WyRand};
    ///
    /// let mut places = [0; 3];
    /// WyRand::seed_from_u64(42).sample(10, &mut places)?;
    /// assert_eq!(places, [2, 7, 6]); // three different numbers below 10
    /// # Ok::<(), RangeError>(())
    /// ```
    ///
    /// # Errors
    ///
    /// Returns `Exhausted` if 128 words in a row were rejected for one slot. The slots before it
    /// then hold the numbers drawn so far, all other slots are unchanged, and the words stay
    /// consumed.
    ///
    /// # Panics
    ///
    /// Panics if there are more than `count` slots.
    #[inline]
    #[track_caller]
    fn sample(&mut self, count: usize, places: &mut [usize]) -> Result<(), RangeError> {
        samples::sample(self, count, places)
    }

    /// Draws a number from a range as `generate_range` does: the short name of
    /// [`generate_range_or_panic`](Self::generate_range_or_panic).
    ///
    /// # Panics
    ///
    /// Panics if the range is empty, or if 128 words in a row were rejected; they stay consumed.
    #[inline(always)]
    #[track_caller]
    fn range<T: RandomRange<Self, OUTPUT> + Clone>(&mut self, range: impl RangeBounds<T>) -> T {
        self.generate_range_or_panic(range)
    }

    /// Shuffles the slice as `shuffle` does: the short name of
    /// [`shuffle_or_panic`](Self::shuffle_or_panic).
    ///
    /// # Panics
    ///
    /// Panics if 128 words in a row were rejected for one index. The swaps before that stay, and
    /// the words stay consumed.
    #[inline]
    #[track_caller]
    fn permute<T>(&mut self, items: &mut [T]) {
        self.shuffle_or_panic(items);
    }

    /// Draws a number from a range as [`generate_range`](Self::generate_range) does.
    ///
    /// # Panics
    ///
    /// Panics if the range is empty, and shows it: "cannot sample empty range 5..5". Panics if 128
    /// words in a row were rejected; they stay consumed.
    #[inline(always)]
    #[track_caller]
    fn generate_range_or_panic<T: RandomRange<Self, OUTPUT> + Clone>(
        &mut self,
        range: impl RangeBounds<T>,
    ) -> T {
        let (low, high) = (range.start_bound(), range.end_bound());
        match T::random_range(self, low.cloned(), high.cloned()) {
            Ok(number) => number,
            Err(error) => refused_range::<T, Self, OUTPUT>(error, low.cloned(), high.cloned()),
        }
    }

    /// Shuffles the slice as [`shuffle`](Self::shuffle) does.
    ///
    /// # Panics
    ///
    /// Panics if 128 words in a row were rejected for one index. The swaps before that stay, and
    /// the words stay consumed.
    #[inline]
    #[track_caller]
    fn shuffle_or_panic<T>(&mut self, target: &mut [T]) {
        if let Err(error) = self.shuffle(target) {
            refused(error);
        }
    }

    /// Shuffles the beginning of the slice as [`partial_shuffle`](Self::partial_shuffle) does.
    ///
    /// # Panics
    ///
    /// Panics if 128 words in a row were rejected for one index. The swaps before that stay, and
    /// the words stay consumed.
    #[inline]
    #[track_caller]
    fn partial_shuffle_or_panic<T>(&mut self, items: &mut [T], count: usize) {
        if let Err(error) = self.partial_shuffle(items, count) {
            refused(error);
        }
    }

    /// Chooses an item of the slice as [`choose`](Self::choose) does.
    ///
    /// # Panics
    ///
    /// Panics if the slice is empty, or if 128 words in a row were rejected; they stay consumed.
    #[inline]
    #[track_caller]
    fn choose_or_panic<'a, T>(&mut self, items: &'a [T]) -> &'a T {
        match self.choose(items) {
            Ok(item) => item,
            Err(error) => refused_for(error, "cannot choose from an empty slice"),
        }
    }

    /// Chooses an item of the slice as [`choose_mut`](Self::choose_mut) does.
    ///
    /// # Panics
    ///
    /// Panics if the slice is empty, or if 128 words in a row were rejected; they stay consumed.
    #[inline]
    #[track_caller]
    fn choose_mut_or_panic<'a, T>(&mut self, items: &'a mut [T]) -> &'a mut T {
        match self.choose_mut(items) {
            Ok(item) => item,
            Err(error) => refused_for(error, "cannot choose from an empty slice"),
        }
    }

    /// Chooses an item by weight as [`choose_weighted`](Self::choose_weighted) does, and returns
    /// its index.
    ///
    /// # Panics
    ///
    /// Panics if there are no weights, if all of them are 0, if their sum is 2^64 or more, or if
    /// 128 words in a row were rejected; they stay consumed.
    #[inline]
    #[track_caller]
    fn choose_weighted_or_panic(&mut self, weights: &[u64]) -> usize {
        match self.choose_weighted(weights) {
            Ok(index) => index,
            Err(error) => refused(error),
        }
    }

    /// Returns true with probability `numerator` / `denominator`, as [`ratio`](Self::ratio) does.
    ///
    /// # Panics
    ///
    /// Panics if `denominator` is 0, or if 128 words in a row were rejected; they stay consumed.
    #[inline]
    #[track_caller]
    fn ratio_or_panic(&mut self, numerator: u64, denominator: u64) -> bool {
        match self.ratio(numerator, denominator) {
            Ok(answer) => answer,
            Err(error) => refused_for(error, "`denominator` must be at least 1"),
        }
    }

    /// Draws a sample without replacement as [`sample`](Self::sample) does.
    ///
    /// # Panics
    ///
    /// Panics if there are more than `count` slots, or if 128 words in a row were rejected for one
    /// slot; they stay consumed.
    #[inline]
    #[track_caller]
    fn sample_or_panic(&mut self, count: usize, places: &mut [usize]) {
        if let Err(error) = self.sample(count, places) {
            refused(error);
        }
    }

    /// Returns true with probability `p`, rounded down to a multiple of 2^-64. It draws a `u64` and
    /// compares it with `p` * 2^64, also if `p` is 0 or 1.
    ///
    /// For an exact fraction such as 1/3, call [`ratio`](Self::ratio).
    ///
    /// # Panics
    ///
    /// Panics if `p` is less than 0, greater than 1, or NaN; nothing is drawn then.
    #[inline]
    #[track_caller]
    #[doc(alias = "random_bool")]
    fn gen_bool(&mut self, p: f64) -> bool {
        const WORDS: f64 = 18_446_744_073_709_551_616.0; // 2^64
        assert!((0.0..=1.0).contains(&p), "`p` must be from 0 to 1, not {p}");
        u128::from(self.next_u64()) < (p * WORDS) as u128
    }

    /// Draws one of the 62 characters `A` to `Z`, `a` to `z` and `0` to `9`, each produced by the
    /// same number of words of 32 bits. The value is `A` if 128 words in a row were rejected.
    ///
    /// ```
    /// use nanorand_proved::{Rng, WyRand};
    ///
    /// let mut rng = WyRand::seed_from_u64(42);
    /// let name: String = (0..8).map(|_| rng.alphanumeric()).collect();
    /// assert_eq!(name, "rRVDm0Zf");
    /// ```
    #[inline]
    fn alphanumeric(&mut self) -> char {
        const CHARACTERS: &[u8; 62] =
            b"ABCDEFGHIJKLMNOPQRSTUVWXYZabcdefghijklmnopqrstuvwxyz0123456789";
        char::from(CHARACTERS[draw_below(self, 62, 32).unwrap_or(0) as usize])
    }

    /// Returns an endless iterator of values, each drawn by `generate` when it is asked for.
    ///
    /// ```
    /// use nanorand_proved::{Rng, WyRand};
    ///
    /// let mut rng = WyRand::seed_from_u64(42);
    /// let throws: Vec<bool> = rng.generate_iter().take(10).collect();
    /// # let _ = throws;
    /// ```
    #[inline]
    #[doc(alias = "random_iter", alias = "sample_iter")]
    fn generate_iter<T: RandomGen<Self, OUTPUT>>(&mut self) -> GenerateIter<'_, T, Self, OUTPUT> {
        GenerateIter::new(self)
    }

    /// Borrows the generator as an [`AnyRng`](crate::AnyRng), for functions that take one.
    ///
    /// ```
    /// use nanorand_proved::{AnyRng, Rng, WyRand};
    ///
    /// fn number(rng: &mut dyn AnyRng) -> u64 {
    ///     rng.u64()
    /// }
    ///
    /// fn sum<R: Rng<OUTPUT>, const OUTPUT: usize>(rng: &mut R) -> u64 {
    ///     number(&mut rng.as_any()).wrapping_add(number(&mut rng.as_any()))
    /// }
    /// # let _ = sum(&mut WyRand::seed_from_u64(42));
    /// ```
    #[inline]
    fn as_any(&mut self) -> Lent<'_, Self, OUTPUT> {
        Lent(self)
    }

    /// Draws a `u32` from the next four bytes, in little-endian order.
    #[inline]
    fn next_u32(&mut self) -> u32 {
        self.generate()
    }

    /// Draws a `u64` from the next eight bytes, in little-endian order.
    #[inline]
    fn next_u64(&mut self) -> u64 {
        self.generate()
    }
}

/// A generator that can be reseeded from `SEED_SIZE` bytes. `OUTPUT` is the number of bytes of a
/// block.
pub trait SeedableRng<const SEED_SIZE: usize, const OUTPUT: usize = 8>: Rng<OUTPUT> {
    /// Reseeds the generator with the bytes of `seed`.
    ///
    /// Each generator defines the state that this leaves. It may keep some of the old state, as a
    /// buffered generator keeps its buffered bytes. So the trait does not guarantee that the seed
    /// alone determines what is drawn next.
    fn reseed(&mut self, seed: [u8; SEED_SIZE]);
}

// Draws the index with which the item at `place` is swapped: `place` or a later index. Drawing a
// number below the count of the items left is faster than drawing one between two bounds.
#[inline]
pub(crate) fn draw_partner<G: Rng<OUTPUT>, const OUTPUT: usize>(
    rng: &mut G,
    place: usize,
    count: usize,
) -> Result<usize, RangeError> {
    match draw_below(rng, (count - place) as u128, 64) {
        Some(ahead) => Ok(place + ahead as usize),
        None => Err(RangeError::Exhausted),
    }
}

/// Fills the slice block by block through `rand`, and drops the unused bytes of the last block.
///
/// It is the `fill_bytes` of a generator without a buffer, which starts each request with a new
/// block. `WyRand`, `Pcg64` and `ChaChaGroups` use it, `ChaCha` uses it for the bytes after the
/// last whole group of four blocks, and your own generator may use it too.
#[inline(always)]
pub fn fill_by_blocks<G: Rng<OUTPUT>, const OUTPUT: usize>(rng: &mut G, buffer: &mut [u8]) {
    let () = crate::layer::BlockLength::<OUTPUT>::POSITIVE;

    let mut filled = 0;
    // The slice below needs exactly this test, so LLVM drops the bounds check of the slice.
    while filled + OUTPUT <= buffer.len() {
        let block = rng.rand();
        buffer[filled..filled + OUTPUT].copy_from_slice(&block);
        filled += OUTPUT;
    }
    let left = buffer.len() - filled;
    if left > 0 {
        let block = rng.rand();
        buffer[filled..].copy_from_slice(&block[..left]);
    }
}
