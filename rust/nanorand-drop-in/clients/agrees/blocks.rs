//! The functions of the stream cipher alone.

use crate::faults::{caught, quiet};
use nanorand_proved::{Rng, WyRand};
use new::crypto::chacha as new_chacha;
use old::crypto::chacha as old_chacha;

macro_rules! check_blocks {
    ($state:ident: $($rounds:literal)+) => { $(
        let block = new_chacha::chacha_block::<$rounds>($state);
        assert_eq!(block, old_chacha::chacha_block::<$rounds>($state), "{} rounds", $rounds);
    )+ };
}

/// With any even number of rounds the block is the same, and so is the counter, except for the
/// carry that 0.7.0 loses.
#[test]
fn blocks_and_counters() {
    let mut choices = WyRand::new_seed(9);
    let mut carries = 0;
    for _ in 0..2000 {
        let (key, nonce) = (choices.generate(), choices.generate());
        let mut state = new_chacha::chacha_init(key, nonce);
        assert_eq!(state, old_chacha::chacha_init(key, nonce));
        state[12] = choices.generate::<u32>() | if choices.generate() { u32::MAX } else { 0 };
        state[13] = choices.generate::<u32>() | if choices.generate() { u32::MAX } else { 0 };
        check_blocks!(state: 0 2 4 6 8 10 12 14 16 18 20 22 24 254);
        let (mut new, mut old) = (state, state);
        let counted = new_chacha::chacha_increment_counter(&mut new);
        assert_eq!(counted, old_chacha::chacha_increment_counter(&mut old));
        if counted && state[12] == u32::MAX {
            carries += 1;
            old[13] += 1;
        }
        assert_eq!(new, old);
    }
    assert!(carries > 0);
}

/// An odd number of rounds compiles, and the first block panics, in both crates.
#[test]
fn odd_rounds() {
    quiet();
    let (mut new, mut old) = (
        new::ChaCha::<7>::new_key([1; 32], [2; 8]),
        old::ChaCha::<7>::new_key([1; 32], [2; 8]),
    );
    assert!(caught(|| new::Rng::rand(&mut new)).is_none());
    assert!(caught(|| old::Rng::rand(&mut old)).is_none());
    assert!(caught(|| new::Rng::fill_bytes(&mut new, [0; 600])).is_none());
    assert!(caught(|| new_chacha::chacha_block::<255>([0; 16])).is_none());
}
