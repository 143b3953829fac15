//! Samples without replacement.

use crate::rand::Rng;
use crate::values::{RandomRange, RangeError};
use core::ops::Bound;

/// Draws a sample without replacement: `places.len()` different numbers below `count`, one into
/// each slot (item) of `places`. `count` is the size of the population, whose members are numbered
/// from 0.
///
/// This is Robert Floyd's algorithm (Bentley and Floyd, "Programming Pearls: a Sample of
/// Brilliance", Communications of the ACM 30(9), 1987). With k slots, a number t is drawn from
/// `0..=j` for slot i, where j is `count - k + i`. The slot takes t, or j if an earlier slot
/// already holds t.
///
/// The expected time is O(k). From 16 slots on, it allocates a table like the one that
/// `sample_with` takes. Without the feature `std`, or if there is no memory for the table, nothing
/// is allocated, and each number is compared with all slots before it, which takes O(k^2). If k is
/// a large part of `count`, fill a slice with 0, 1, .. and call `shuffles::partial_shuffle`
/// instead: it takes k steps, and memory for all `count` numbers.
///
/// Each set of k numbers is produced by the same number of sequences of draws. The order of the
/// slots is not uniform: the number `count - 1` can only be in the last slot. Shuffle the slots if
/// you need a random order.
///
/// # Errors
///
/// Returns `Exhausted`, the only error, if 128 words (random integers of 64 bits) in a row were
/// rejected for one slot. The slots before it then hold the numbers drawn so far, all other slots
/// are unchanged, and the words stay consumed. If there are no slots, nothing is drawn.
///
/// # Panics
///
/// Panics if there are more than `count` slots.
///
/// # Examples
///
/// ```
/// use nanorand_proved::{samples, RangeError, Rng, WyRand};
///
/// let mut rng = WyRand::seed_from_u64(42);
/// let mut places = [0; 4];
/// samples::sample(&mut rng, 1000, &mut places)?;
/// assert_eq!(places, [341, 812, 641, 50]);
/// rng.shuffle(&mut places)?; // now in random order
/// # Ok::<(), RangeError>(())
/// ```
#[track_caller]
pub fn sample<G: Rng<OUTPUT>, const OUTPUT: usize>(
    rng: &mut G,
    count: usize,
    places: &mut [usize],
) -> Result<(), RangeError> {
    assert!(
        places.len() <= count,
        "`places` must have at most `count` slots"
    );

    extend_sample(rng, count, places, 0, &mut crate::layer::table(places))
}

/// Draws a sample as `sample` does, with a table that the caller provides. The expected time is
/// O(k) for k slots.
///
/// The length and the items of the table change only the time: the numbers, the state and the
/// errors are those of `sample`. The table links the slots whose numbers agree in their low bits
/// into a chain, so that a new number is compared with the slots of one chain only. On average a
/// chain has at most one slot if the table has 3k items, and at most two if it has 2k. With k items
/// or fewer there are no chains, and the time is O(k^2). The contents of the table are unspecified
/// afterwards.
///
/// # Errors
///
/// Returns `Exhausted`, the only error, as `sample` does.
///
/// # Panics
///
/// Panics if there are more than `count` slots.
///
/// # Examples
///
/// ```
/// use nanorand_proved::{samples, RangeError, Rng, WyRand};
///
/// let mut rng = WyRand::seed_from_u64(42);
/// let mut places = [0; 4];
/// let mut table = [0; 12];
/// samples::sample_with(&mut rng, 1000, &mut places, &mut table)?;
/// assert_eq!(places, [341, 812, 641, 50]); // as `sample`
/// # Ok::<(), RangeError>(())
/// ```
#[track_caller]
pub fn sample_with<G: Rng<OUTPUT>, const OUTPUT: usize>(
    rng: &mut G,
    count: usize,
    places: &mut [usize],
    table: &mut [usize],
) -> Result<(), RangeError> {
    assert!(
        places.len() <= count,
        "`places` must have at most `count` slots"
    );

    extend_sample(rng, count, places, 0, table)
}

/// Continues a sample: keeps the first `filled` slots, and fills the others.
///
/// Use it to draw a long sample in pieces. In a sample of `places.len()` numbers below `count`, the
/// first k slots are a sample of the numbers below `count - (places.len() - k)`. So first pass only
/// these k slots, with that smaller count, and then the whole slice, with the whole count and with
/// k as `filled`. If `filled` is 0, this is `sample_with`, which describes the table.
///
/// The slots that are kept are linked into the table again, which takes O(k). If you keep numbers
/// that do not come from a sample and agree in their low bits, they are in one chain, and the time
/// is up to O(k^2).
///
/// Precondition: the kept slots hold different numbers below `count - places.len() + filled`. Then
/// all slots hold different numbers below `count` afterwards.
///
/// # Errors
///
/// Returns `Exhausted`, the only error, as `sample` does. The slots before the failure hold the
/// sample so far.
///
/// # Panics
///
/// Panics if there are more than `count` slots, or if `filled` is greater than the number of slots.
///
/// # Examples
///
/// ```
/// use nanorand_proved::{samples, RangeError, Rng, WyRand};
///
/// let mut rng = WyRand::seed_from_u64(42);
/// let mut places = [0; 4];
/// let mut table = [0; 12];
/// samples::extend_sample(&mut rng, 998, &mut places[..2], 0, &mut table)?; // two slots of four
/// assert_eq!(places, [341, 812, 0, 0]);
/// samples::extend_sample(&mut rng, 1000, &mut places, 2, &mut table)?;
/// assert_eq!(places, [341, 812, 641, 50]); // as `sample`
/// # Ok::<(), RangeError>(())
/// ```
#[track_caller]
pub fn extend_sample<G: Rng<OUTPUT>, const OUTPUT: usize>(
    rng: &mut G,
    count: usize,
    places: &mut [usize],
    filled: usize,
    table: &mut [usize],
) -> Result<(), RangeError> {
    assert!(
        places.len() <= count,
        "`places` must have at most `count` slots"
    );
    assert!(
        filled <= places.len(),
        "`filled` must be at most the length of `places`"
    );

    let first = count - places.len();
    let chains = chains_in(table.len().saturating_sub(places.len()));
    link_all(places, filled, table, chains);
    for slot in filled..places.len() {
        let last = first + slot;
        let drawn = draw_up_to(rng, last)?;
        let number = joining(&places[..slot], table, chains, last, drawn);
        places[slot] = number;
        link(places, slot, table, chains);
    }
    Ok(())
}

// Returns the number that joins the sample: the number drawn, or `last` if the sample already holds
// that number.
fn joining(sample: &[usize], table: &[usize], chains: usize, last: usize, drawn: usize) -> usize {
    if holds(sample, table, chains, drawn) {
        last
    } else {
        drawn
    }
}

// Returns whether the sample holds the number. Without chains, the whole sample is searched.
fn holds(sample: &[usize], table: &[usize], chains: usize, number: usize) -> bool {
    if chains == 0 {
        return sample.contains(&number);
    }
    let mut item = table[chain_of(number, chains)];
    while item > 0 {
        let place = item - 1;
        if sample[place] == number {
            return true;
        }
        item = table[chains + place];
    }
    false
}

// Links the first `filled` slots, and no others.
fn link_all(places: &[usize], filled: usize, table: &mut [usize], chains: usize) {
    table[..chains].fill(0);
    for slot in 0..filled {
        link(places, slot, table, chains);
    }
}

// Links the slot into the chain of its number, at the head of the chain.
fn link(places: &[usize], slot: usize, table: &mut [usize], chains: usize) {
    if chains > 0 {
        let chain = chain_of(places[slot], chains);
        table[chains + slot] = table[chain];
        table[chain] = slot + 1;
    }
}

// Returns the chain of a number: its low bits, since the number of chains is a power of two.
fn chain_of(number: usize, chains: usize) -> usize {
    number & (chains - 1)
}

// Returns the number of chains: the greatest power of two that is at most `room`, or 0 if there is
// no room.
fn chains_in(room: usize) -> usize {
    if room == 0 {
        return 0;
    }
    (usize::MAX / 2 + 1) >> room.leading_zeros()
}

// Draws a number from `0..=last`.
fn draw_up_to<G: Rng<OUTPUT>, const OUTPUT: usize>(
    rng: &mut G,
    last: usize,
) -> Result<usize, RangeError> {
    usize::random_range(rng, Bound::Included(0), Bound::Included(last))
}

/// Draws a sample of `chosen.len()` items from an iterator, in one pass, without knowing its
/// length.
///
/// This is Alan Waterman's algorithm R (Knuth, "The Art of Computer Programming", volume 2; Vitter,
/// "Random Sampling with a Reservoir", ACM Transactions on Mathematical Software 11(1), 1985). The
/// first items fill the slots in order. For each later item, which has number i counting from 0, a
/// number is drawn from `0..=i`: if there is a slot with that index, the item replaces the one in
/// it.
///
/// Returns the number of filled slots: all of them, unless the iterator ends earlier. The slots
/// after these are unchanged. For n items and k slots, n steps are taken and n - k numbers are
/// drawn (none if n is at most k). So without slots, a number is drawn for each item. No memory is
/// needed apart from the slots. If the items are in a slice, `samples::sample` of their indices
/// draws only k numbers.
///
/// Each set of k items is produced by the same number of sequences of draws. The order of the slots
/// is not uniform: item 0 can only be in slot 0. Shuffle the slots if you need a random order.
///
/// Precondition: the iterator ends, after at most `usize::MAX` items.
///
/// # Errors
///
/// Returns `Exhausted`, the only error, if 128 words (random integers of 64 bits) in a row were
/// rejected for one item. That item is dropped, and the items after it are not taken: pass
/// `&mut iterator` to keep them. The slots then hold a sample of the items before it, and the words
/// stay consumed.
///
/// # Examples
///
/// ```
/// use nanorand_proved::{samples, RangeError, WyRand};
///
/// let log = "one\ntwo\nthree\nfour\nfive\nsix";
/// let mut lines = [""; 3];
/// let mut rng = WyRand::seed_from_u64(42);
/// let filled = samples::reservoir(&mut rng, log.lines(), &mut lines)?;
/// assert_eq!((filled, lines), (3, ["one", "four", "three"]));
/// # Ok::<(), RangeError>(())
/// ```
pub fn reservoir<I: Iterator, G: Rng<OUTPUT>, const OUTPUT: usize>(
    rng: &mut G,
    items: I,
    chosen: &mut [I::Item],
) -> Result<usize, RangeError> {
    let mut taken = 0;
    for item in items {
        let slot = slot_for(rng, taken, chosen.len())?;
        place_at(chosen, slot, item);
        taken += 1;
    }
    Ok(taken.min(chosen.len()))
}

// Returns the slot for an item: the item's own number for the first items, which fill the slots in
// order, and a drawn number for a later item.
fn slot_for<G: Rng<OUTPUT>, const OUTPUT: usize>(
    rng: &mut G,
    item: usize,
    size: usize,
) -> Result<usize, RangeError> {
    if item < size {
        Ok(item)
    } else {
        draw_up_to(rng, item)
    }
}

// Puts the item into the slot, if the slot exists.
fn place_at<T>(slots: &mut [T], slot: usize, item: T) {
    if slot < slots.len() {
        slots[slot] = item;
    }
}
