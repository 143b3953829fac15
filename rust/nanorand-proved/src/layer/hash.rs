//! `Hash` for generators: equal generators have equal hashes. Hand-written and tested, not proved.

use crate::buffer::BufferedRng;
use crate::rand::{ChaCha, ChaChaGroups, Pcg64, Rng, WyRand};
use core::hash::{Hash, Hasher};

/// Hashes the seed.
impl Hash for WyRand {
    fn hash<H: Hasher>(&self, state: &mut H) {
        self.seed().hash(state);
    }
}

/// Hashes only the seed, which determines all blocks to come.
impl Hash for Pcg64 {
    fn hash<H: Hasher>(&self, state: &mut H) {
        self.seed().hash(state);
    }
}

/// Hashes the key, the nonce and the counter.
impl<const ROUNDS: u8> Hash for ChaCha<ROUNDS> {
    fn hash<H: Hasher>(&self, state: &mut H) {
        (self.key(), self.nonce(), self.counter()).hash(state);
    }
}

/// Hashes the key, the nonce and the counter.
impl<const ROUNDS: u8> Hash for ChaChaGroups<ROUNDS> {
    fn hash<H: Hasher>(&self, state: &mut H) {
        (self.key(), self.nonce(), self.counter()).hash(state);
    }
}

/// Hashes the buffered bytes and the inner generator.
impl<G: Rng<OUTPUT> + Hash, const OUTPUT: usize> Hash for BufferedRng<G, OUTPUT> {
    fn hash<H: Hasher>(&self, state: &mut H) {
        self.rest().hash(state);
        self.inner().hash(state);
    }
}
