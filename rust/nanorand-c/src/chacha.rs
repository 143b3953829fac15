//! `ChaCha`, whose state in C is its key, its nonce and its counter.

use crate::calls::State;
use nanorand_proved::{ChaCha, Rng};

/// A generator: its key, its nonce, and the index of its next block.
#[repr(C)]
pub struct ChaChaState<const ROUNDS: u8> {
    pub key: [u8; 32],
    pub nonce: [u8; 8],
    pub counter: u64,
}

impl<const ROUNDS: u8> ChaChaState<ROUNDS> {
    /// Returns the state of this key and nonce, at its first block.
    pub fn new_key(key: [u8; 32], nonce: [u8; 8]) -> Self {
        ChaChaState {
            key,
            nonce,
            counter: 0,
        }
    }

    /// Returns the state that is made from a number, at its first block.
    pub fn seed_from_u64(number: u64) -> Self {
        let rng = ChaCha::<ROUNDS>::seed_from_u64(number);
        ChaChaState::new_key(rng.key(), rng.nonce())
    }
}

impl<const ROUNDS: u8> State<64> for ChaChaState<ROUNDS> {
    type Generator = ChaCha<ROUNDS>;

    /// Only the counter is stored back: no call changes the key or the nonce.
    fn call<T>(&mut self, call: impl FnOnce(&mut ChaCha<ROUNDS>) -> T) -> T {
        let mut rng = ChaCha::at(self.key, self.nonce, self.counter);
        let result = call(&mut rng);
        self.counter = rng.counter();
        result
    }
}

export_calls!("chacha8", ChaChaState<8>);
export_calls!("chacha12", ChaChaState<12>);
export_calls!("chacha20", ChaChaState<20>);
export_part!("chacha8", ChaChaState<8>);
export_part!("chacha12", ChaChaState<12>);
export_part!("chacha20", ChaChaState<20>);

/// The three numbers of rounds share one struct in C, and so this function.
#[no_mangle]
extern "C" fn nanorand_v1_chacha_new_key(key: &[u8; 32], nonce: &[u8; 8]) -> ChaChaState<20> {
    ChaChaState::new_key(*key, *nonce)
}

#[no_mangle]
extern "C" fn nanorand_v1_chacha8_seed_from_u64(state: &mut ChaChaState<8>, number: u64) {
    *state = ChaChaState::seed_from_u64(number);
}

#[no_mangle]
extern "C" fn nanorand_v1_chacha12_seed_from_u64(state: &mut ChaChaState<12>, number: u64) {
    *state = ChaChaState::seed_from_u64(number);
}

#[no_mangle]
extern "C" fn nanorand_v1_chacha20_seed_from_u64(state: &mut ChaChaState<20>, number: u64) {
    *state = ChaChaState::seed_from_u64(number);
}

#[no_mangle]
extern "C" fn nanorand_v1_chacha8_block(state: &mut ChaChaState<8>, out: &mut [u8; 64]) {
    *out = state.call(Rng::rand);
}

#[no_mangle]
extern "C" fn nanorand_v1_chacha12_block(state: &mut ChaChaState<12>, out: &mut [u8; 64]) {
    *out = state.call(Rng::rand);
}

#[no_mangle]
extern "C" fn nanorand_v1_chacha20_block(state: &mut ChaChaState<20>, out: &mut [u8; 64]) {
    *out = state.call(Rng::rand);
}

#[test]
fn a_new_key_begins_with_its_first_block() {
    let mut state = nanorand_v1_chacha_new_key(&[1; 32], &[2; 8]);
    assert_eq!(state.counter, 0);
    let block = ChaCha::<20>::new_key([1; 32], [2; 8]).rand();
    assert_eq!(state.call(Rng::rand), block);
}
