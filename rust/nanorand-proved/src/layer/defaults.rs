//! `Default` for generators, with a seed from the operating system. Hand-written and tested, not
//! proved.
#![cfg(feature = "std")]

use crate::rand::{ChaCha, ChaChaGroups, Pcg64, WyRand};
use std::io;

/// Calls `from_entropy`, and panics if it returns an error.
impl Default for WyRand {
    #[track_caller]
    fn default() -> Self {
        seeded(Self::from_entropy())
    }
}

/// Calls `from_entropy`, and panics if it returns an error.
impl Default for Pcg64 {
    #[track_caller]
    fn default() -> Self {
        seeded(Self::from_entropy())
    }
}

/// Calls `from_entropy`, and panics if it returns an error.
impl<const ROUNDS: u8> Default for ChaCha<ROUNDS> {
    #[track_caller]
    fn default() -> Self {
        seeded(Self::from_entropy())
    }
}

/// Takes the key and the nonce of a default `ChaCha`, and panics if the operating system provides
/// none.
impl<const ROUNDS: u8> Default for ChaChaGroups<ROUNDS> {
    #[track_caller]
    fn default() -> Self {
        let chacha = ChaCha::<ROUNDS>::default();
        Self::new_key(chacha.key(), chacha.nonce())
    }
}

// A closure would panic at a place of its own, and not at that of the caller.
#[track_caller]
fn seeded<G>(generator: io::Result<G>) -> G {
    match generator {
        Ok(generator) => generator,
        Err(error) => panic!("no seed: {error}"),
    }
}

#[cfg(test)]
mod tests {
    use super::seeded;
    use std::io::{Error, ErrorKind};

    #[test]
    #[should_panic(expected = "no seed: the system is asleep")]
    fn without_a_source() {
        seeded(Err::<u8, _>(Error::new(
            ErrorKind::Other,
            "the system is asleep",
        )));
    }
}
