//! The draw by lot, on C memory.

use crate::boundary::{Array, ArrayMut};
use core::str;
use lots::LotsError;

/// Returns the status of a result: `NANORAND_OK`, or the exit status of the program `lots`.
fn status<T>(outcome: Result<T, LotsError>) -> u32 {
    outcome.map_or_else(|error| u32::from(error.status()), |_| 0)
}

#[no_mangle]
extern "C" fn nanorand_v1_lots_digest(text: Array<u8>, length: usize, digest: &mut [u8; 32]) {
    *digest = lots::sha256::digest(text.items(length));
}

#[no_mangle]
extern "C" fn nanorand_v1_lots_count(list: Array<u8>, length: usize, number: &mut usize) -> u32 {
    let outcome = lots::count_entrants(list.items(length));
    if let Ok(found) | Err(LotsError::EmptyLine(found)) = outcome {
        *number = found;
    }
    status(outcome)
}

#[no_mangle]
extern "C" fn nanorand_v1_lots_draw(
    seed: Array<u8>,
    seed_length: usize,
    places: ArrayMut<usize>,
    length: usize,
    wanted: usize,
) -> u32 {
    match str::from_utf8(seed.items(seed_length)) {
        Ok(seed) if !seed.is_empty() => {
            status(lots::draw_places(seed, places.items(length), wanted))
        }
        _ => status::<()>(Err(LotsError::Usage)),
    }
}
