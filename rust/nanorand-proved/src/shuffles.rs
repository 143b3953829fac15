//! Shuffles as lists of choices, which can be stored, applied and recovered; a partial shuffle; and
//! the shuffle of `nanorand` 0.7.0.

use crate::rand::{draw_partner, Rng};
use crate::swap::swap;
use crate::values::{RandomRange, RangeError};
use core::ops::Bound;

/// The error of [`choices_of`]: the list is not a permutation of the numbers below its length.
#[derive(Clone, Copy, Debug, PartialEq, Eq)]
pub struct NotArrangement;

impl core::fmt::Display for NotArrangement {
    fn fmt(&self, f: &mut core::fmt::Formatter<'_>) -> core::fmt::Result {
        f.write_str("the list is no arrangement")
    }
}

#[cfg(feature = "std")]
impl std::error::Error for NotArrangement {}

/// Writes the identity permutation to the slice: 0, 1, .., one number into each slot. These can be
/// the cards of a deck in order, or the positions in a list.
///
/// # Examples
///
/// ```
/// let mut places = [0; 5];
/// nanorand_proved::shuffles::identity(&mut places);
/// assert_eq!(places, [0, 1, 2, 3, 4]);
/// ```
pub fn identity(slots: &mut [usize]) {
    for (place, slot) in slots.iter_mut().enumerate() {
        *slot = place;
    }
}

/// Applies stored choices to the items: for each index i, from 0 up, swaps the items at i and
/// `choices[i]`.
///
/// The result is a permutation of the items. Applying the choices that `shuffle_and_record`
/// recorded to the items that it started from repeats its shuffle.
///
/// # Panics
///
/// Panics if `choices` and `items` differ in length, or if a choice is less than its index or not
/// an index of an item.
///
/// # Examples
///
/// ```
/// let mut items = ["ace", "king", "queen"];
/// nanorand_proved::shuffles::apply_choices(&[2, 1, 2], &mut items);
/// assert_eq!(items, ["queen", "king", "ace"]);
/// ```
#[track_caller]
pub fn apply_choices<T>(choices: &[usize], items: &mut [T]) {
    assert!(
        choices.len() == items.len(),
        "`choices` must be as long as `items`"
    );
    let within = |(place, choice): (usize, &usize)| (place..choices.len()).contains(choice);
    assert!(
        choices.iter().enumerate().all(within),
        "each choice must be its own index or a later one"
    );

    for (place, choice) in choices.iter().enumerate() {
        swap(items, place, *choice);
    }
}

/// Writes to `out` the choices that turn the identity 0, 1, .. into `order`. There is exactly one
/// such list of valid choices.
///
/// The old contents of `out` and `scratch` are ignored, and nothing is allocated. The time is
/// O(n^2) for n numbers.
///
/// # Errors
///
/// Returns `NotArrangement` if and only if `order` is not a permutation of the numbers below its
/// length. The contents of `out` are unspecified then. The contents of `scratch` are always
/// unspecified afterwards.
///
/// # Panics
///
/// Panics if `out` or `scratch` differs in length from `order`.
///
/// # Examples
///
/// ```
/// use nanorand_proved::shuffles::{choices_of, NotArrangement};
///
/// let mut choices = [0; 3];
/// choices_of(&[2, 1, 0], &mut choices, &mut [0; 3])?;
/// assert_eq!(choices, [2, 1, 2]);
/// assert_eq!(choices_of(&[1, 1], &mut [0; 2], &mut [0; 2]), Err(NotArrangement));
/// # Ok::<(), NotArrangement>(())
/// ```
#[track_caller]
pub fn choices_of(
    order: &[usize],
    out: &mut [usize],
    scratch: &mut [usize],
) -> Result<(), NotArrangement> {
    assert!(out.len() == order.len(), "`out` must be as long as `order`");
    assert!(
        scratch.len() == order.len(),
        "`scratch` must be as long as `order`"
    );

    identity(scratch);
    for (place, wanted) in order.iter().enumerate() {
        match place_from(scratch, place, *wanted) {
            Some(choice) => {
                out[place] = choice;
                swap(scratch, place, choice);
            }
            None => return Err(NotArrangement),
        }
    }
    Ok(())
}

// Returns an index, `from` or later, whose item is `wanted`.
fn place_from(items: &[usize], from: usize, wanted: usize) -> Option<usize> {
    for place in from..items.len() {
        if items[place] == wanted {
            return Some(place);
        }
    }
    None
}

/// Shuffles the slice as `Rng::shuffle` does, and records the drawn choices in `choices`.
///
/// The result, the items and the generator are those of `Rng::shuffle`. The old contents of
/// `choices` are overwritten. Nothing is allocated. An empty slice draws nothing.
///
/// # Errors
///
/// Returns `Exhausted` if 128 words (random integers of 64 bits) in a row were rejected for one
/// index. The swaps before that stay, and the words stay consumed. `choices` then holds the choices
/// drawn before the failure and, for each index from there on, the index itself, which moves
/// nothing. So the choices are valid in this case too, and `apply_choices` repeats what was done.
///
/// # Panics
///
/// Panics if `choices` and `target` differ in length.
///
/// # Examples
///
/// ```
/// use nanorand_proved::shuffles::{apply_choices, shuffle_and_record};
/// use nanorand_proved::{RangeError, WyRand};
///
/// let (mut numbers, mut choices) = ([1, 2, 3, 4, 5], [0; 5]);
/// shuffle_and_record(&mut WyRand::seed_from_u64(42), &mut numbers, &mut choices)?;
/// let mut letters = ['a', 'b', 'c', 'd', 'e'];
/// apply_choices(&choices, &mut letters);
/// assert_eq!(numbers, [2, 5, 4, 3, 1]);
/// assert_eq!(letters, ['b', 'e', 'd', 'c', 'a']);
/// # Ok::<(), RangeError>(())
/// ```
#[track_caller]
pub fn shuffle_and_record<G: Rng<OUTPUT>, T, const OUTPUT: usize>(
    rng: &mut G,
    target: &mut [T],
    choices: &mut [usize],
) -> Result<(), RangeError> {
    assert!(
        choices.len() == target.len(),
        "`choices` must be as long as `target`"
    );

    identity(choices);
    let count = target.len();
    for place in 0..count {
        let partner = draw_partner(rng, place, count)?;
        swap(target, place, partner);
        choices[place] = partner;
    }
    Ok(())
}

/// Shuffles the beginning of the slice: makes the first `count` steps of `Rng::shuffle`, or all of
/// them if there are fewer items.
///
/// The first `count` items are then a random selection from all items, in random order, and the
/// other items follow. For each index i below `count`, from 0 up, an index is drawn from i to the
/// last one, and the items at i and at that index are swapped. The time is O(`count`).
///
/// # Errors
///
/// Returns `Exhausted` if 128 words (random integers of 64 bits) in a row were rejected for one
/// index. The swaps before that stay, and the words stay consumed. If `count` is 0 or the slice is
/// empty, nothing is drawn.
///
/// # Examples
///
/// ```
/// use nanorand_proved::{shuffles::partial_shuffle, RangeError, WyRand};
///
/// let mut deck: Vec<u8> = (0..52).collect();
/// partial_shuffle(&mut WyRand::seed_from_u64(42), &mut deck, 5)?;
/// let (hand, rest) = deck.split_at(5);
/// assert_eq!(hand, [17, 42, 34, 5, 2]);
/// assert!(hand.iter().all(|card| !rest.contains(card)));
/// # Ok::<(), RangeError>(())
/// ```
pub fn partial_shuffle<G: Rng<OUTPUT>, T, const OUTPUT: usize>(
    rng: &mut G,
    target: &mut [T],
    count: usize,
) -> Result<(), RangeError> {
    let items = target.len();
    for place in 0..count.min(items) {
        let chosen = draw_partner(rng, place, items)?;
        swap(target, place, chosen);
    }
    Ok(())
}

/// Shuffles the slice as the Rust crate `nanorand` 0.7.0 does: for each index i, from 0 up, swaps
/// the item at i with the one at an index drawn from the whole slice.
///
/// This is not the Fisher-Yates shuffle, which draws only from i and the indices after it. The
/// result is a permutation of the items. Several lists of choices produce the same permutation, so
/// the shuffle is biased for three or more items.
///
/// # Errors
///
/// Returns `Exhausted` if 128 words (random integers of 64 bits) in a row were rejected for one
/// index. The swaps before that stay, and the words stay consumed. An empty slice draws nothing.
///
/// # Examples
///
/// ```
/// use nanorand_proved::{shuffles::shuffle_full, RangeError, WyRand};
///
/// let mut items = [1, 2, 3, 4, 5];
/// shuffle_full(&mut WyRand::seed_from_u64(42), &mut items)?;
/// assert_eq!(items, [3, 5, 4, 1, 2]);
/// # Ok::<(), RangeError>(())
/// ```
#[inline]
pub fn shuffle_full<G: Rng<OUTPUT>, T, const OUTPUT: usize>(
    rng: &mut G,
    target: &mut [T],
) -> Result<(), RangeError> {
    let count = target.len();
    for place in 0..count {
        let other = usize::random_range(rng, Bound::Included(0), Bound::Excluded(count))?;
        swap(target, place, other);
    }
    Ok(())
}
