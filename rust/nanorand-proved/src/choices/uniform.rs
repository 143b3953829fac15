//! Unbiased choices: every outcome is produced by the same number of words, where a word is a
//! random integer of N bits.

use crate::rand::Rng;
use crate::values::number::Number;
use crate::values::range::draw_number;
use crate::values::word::draw_word;
use crate::values::{RandomRange, RangeError};
use core::ops::Bound;

/// Draws a number below `n`: for an unsigned type one of 0, 1, .., `n` - 1, and for a signed type a
/// number from the type's least number up to `n` - 1.
///
/// # Errors
///
/// Returns `Empty` if the type has no number below `n`; nothing is drawn then. Returns `Exhausted`
/// if 128 words in a row were rejected; they stay consumed. If the count of the numbers below `n`
/// is a power of two (for an unsigned type: if `n` itself is a power of two), no word is rejected.
///
/// # Examples
///
/// ```
/// use nanorand_proved::{choices, RangeError, WyRand};
///
/// let card: u8 = choices::below(&mut WyRand::seed_from_u64(42), 52)?;
/// assert_eq!(card, 44);
/// # Ok::<(), RangeError>(())
/// ```
#[inline]
pub fn below<T: Number, G: Rng<OUTPUT>, const OUTPUT: usize>(
    rng: &mut G,
    n: T,
) -> Result<T, RangeError> {
    draw_number(rng, Bound::Unbounded, Bound::Excluded(n))
}

/// Draws a number from `low..=high`, such as `1..=6` for a die. Each number is produced by the same
/// number of words.
///
/// # Errors
///
/// Returns `Empty` if `low` is above `high`; nothing is drawn then. Returns `Exhausted` if 128
/// words in a row were rejected; they stay consumed. If the count of the numbers is a power of two,
/// no word is rejected.
///
/// # Examples
///
/// ```
/// use nanorand_proved::{choices, RangeError, WyRand};
///
/// let pips: u8 = choices::between(&mut WyRand::seed_from_u64(42), 1, 6)?;
/// assert_eq!(pips, 6);
/// # Ok::<(), RangeError>(())
/// ```
#[inline]
pub fn between<T: Number, G: Rng<OUTPUT>, const OUTPUT: usize>(
    rng: &mut G,
    low: T,
    high: T,
) -> Result<T, RangeError> {
    draw_number(rng, Bound::Included(low), Bound::Included(high))
}

/// Draws one of 2^`count` numbers: for an unsigned type one of 0, 1, .., 2^`count` - 1, and for a
/// signed type one of the 2^`count` numbers that begin with the type's least number.
///
/// This function has no error to return: it draws exactly one word of the type's width, and uses
/// its top `count` bits. `values::word::draw_below` with the size 2^`count` draws the same number.
///
/// # Panics
///
/// Panics if `count` is greater than the width of the type.
///
/// # Examples
///
/// ```
/// use nanorand_proved::{choices, WyRand};
///
/// let digit: u8 = choices::bits(&mut WyRand::seed_from_u64(42), 4);
/// assert_eq!(digit, 13);
/// ```
#[track_caller]
#[inline]
pub fn bits<T: Number, G: Rng<OUTPUT>, const OUTPUT: usize>(rng: &mut G, count: u32) -> T {
    assert!(
        count <= T::BITS,
        "`count` must be at most the width of the type"
    );

    let word = draw_word(rng, T::BITS);
    // For `count` 0 the shift is by the whole width, which a `u64` does not allow.
    T::at_place((u128::from(word) >> (T::BITS - count)) as u64)
}

/// Chooses an item of the slice. Each item is chosen by the same number of words.
///
/// # Errors
///
/// Returns `Empty` if the slice is empty; nothing is drawn then. Returns `Exhausted` if 128 words
/// in a row were rejected; they stay consumed.
///
/// # Examples
///
/// ```
/// use nanorand_proved::{choices, RangeError, WyRand};
///
/// // A name for a temporary file, not a password.
/// let mut rng = WyRand::seed_from_u64(42);
/// let mut name = String::new();
/// for _ in 0..8 {
///     name.push(char::from(*choices::choose(&mut rng, b"0123456789abcdef")?));
/// }
/// assert_eq!(name, "5da0a1d6");
/// assert_eq!(choices::choose(&mut rng, b""), Err(RangeError::Empty));
/// # Ok::<(), RangeError>(())
/// ```
#[inline]
pub fn choose<'a, T, G: Rng<OUTPUT>, const OUTPUT: usize>(
    rng: &mut G,
    items: &'a [T],
) -> Result<&'a T, RangeError> {
    let index = usize::random_range(rng, Bound::Included(0), Bound::Excluded(items.len()))?;
    Ok(&items[index])
}

/// Chooses an item of the slice as `choose` does, and returns a mutable reference to it.
///
/// # Errors
///
/// Returns `Empty` if the slice is empty; nothing is drawn then. Returns `Exhausted` if 128 words
/// in a row were rejected; they stay consumed.
///
/// # Examples
///
/// ```
/// use nanorand_proved::{choices, RangeError, WyRand};
///
/// let mut lamps = ["off"; 4];
/// *choices::choose_mut(&mut WyRand::seed_from_u64(42), &mut lamps)? = "on";
/// assert_eq!(lamps, ["off", "on", "off", "off"]);
/// # Ok::<(), RangeError>(())
/// ```
#[inline]
pub fn choose_mut<'a, T, G: Rng<OUTPUT>, const OUTPUT: usize>(
    rng: &mut G,
    items: &'a mut [T],
) -> Result<&'a mut T, RangeError> {
    let index = usize::random_range(rng, Bound::Included(0), Bound::Excluded(items.len()))?;
    Ok(&mut items[index])
}

/// Returns true with probability `numerator` / `denominator`: a number below `denominator` is
/// drawn, and the result is whether it is below `numerator`.
///
/// So, for `numerator` up to `denominator`, the number of words that give true is exactly
/// `numerator` times the number of words that each number below `denominator` has. If `numerator`
/// is `denominator` or more, the function never returns false.
///
/// # Errors
///
/// Returns `Empty` if `denominator` is 0; nothing is drawn then. Returns `Exhausted` if 128 words
/// in a row were rejected; they stay consumed.
///
/// # Examples
///
/// ```
/// use nanorand_proved::{choices, RangeError, WyRand};
///
/// let mut rng = WyRand::seed_from_u64(42);
/// let rain: bool = choices::ratio(&mut rng, 1, 3)?;
/// assert!(choices::ratio(&mut rng, 3, 3)?, "three of three cases");
/// assert!(!choices::ratio(&mut rng, 0, 3)?, "none of three cases");
/// assert_eq!(choices::ratio(&mut rng, 1, 0), Err(RangeError::Empty));
/// # let _ = rain;
/// # Ok::<(), RangeError>(())
/// ```
#[inline]
pub fn ratio<G: Rng<OUTPUT>, const OUTPUT: usize>(
    rng: &mut G,
    numerator: u64,
    denominator: u64,
) -> Result<bool, RangeError> {
    let number = u64::random_range(rng, Bound::Included(0), Bound::Excluded(denominator))?;
    Ok(number < numerator)
}
