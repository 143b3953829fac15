//! The draw: the random words that a seed produces, and the entrants that they select.

use crate::error::LotsError;
use crate::sha256;
use nanorand_proved::shuffles::partial_shuffle;
use nanorand_proved::{BufferedRng, ChaCha20};

/// Returns the generator of a seed: the keystream of ChaCha20, read as little-endian words (random
/// integers) of 64 bits. The key is the SHA-256 of the seed; the nonce and the counter are 0.
fn words_of(seed: &str) -> BufferedRng<ChaCha20, 64> {
    BufferedRng::new(ChaCha20::new_key(sha256::digest(seed.as_bytes()), [0; 8]))
}

/// Draws `count` of the entrants, as the seed determines. The first `count` items are then the
/// entrants drawn, in the order in which they were drawn, and the others follow. Nothing is
/// allocated.
///
/// # Errors
///
/// Returns `TooFew` if and only if there are fewer entrants than `count`; nothing is moved then.
/// Returns `Exhausted` if 128 words in a row were rejected for one place; the items are then a
/// permutation of the entrants, and not a selection.
pub fn draw<T>(seed: &str, entrants: &mut [T], count: usize) -> Result<(), LotsError> {
    let there = entrants.len();
    if there < count {
        return Err(LotsError::TooFew {
            entrants: there,
            count,
        });
    }
    partial_shuffle(&mut words_of(seed), entrants, count).map_err(|_| LotsError::Exhausted)
}

/// Numbers the places: 0, 1, ..
fn number(places: &mut [usize]) {
    for (index, place) in places.iter_mut().enumerate() {
        *place = index;
    }
}

/// Draws `count` of the places 0, 1, .. with the seed. There are as many places as items. The first
/// `count` items are then the places drawn, in the order in which they were drawn; the old items
/// are ignored.
///
/// # Errors
///
/// Returns the errors of `draw`. The items are then the places in some order, and not a selection.
pub fn draw_places(seed: &str, places: &mut [usize], count: usize) -> Result<(), LotsError> {
    number(places);
    draw(seed, places, count)
}
