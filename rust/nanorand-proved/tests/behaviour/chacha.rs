//! ChaCha: published vectors, rounds and their inverse, and the counter.

use crate::common::{array_of, bytes_of};
use nanorand_proved::crypto::chacha::{
    chacha_block, chacha_increment_counter, chacha_init, chacha_rounds, chacha_unrounds,
};
use nanorand_proved::{BufferedRng, ChaCha12, ChaCha20, ChaCha8, Rng, WyRand};

const KEY: &str = "000102030405060708090a0b0c0d0e0f101112131415161718191a1b1c1d1e1f";

const FIRST: &str = "76b8e0ada0f13d90405d6ae55386bd28bdd219b8a08ded1aa836efcc8b770dc7da41597c5157488d7724e03fb8d84a376a43b8f41518a11cc387b669b2ee6586";

/// Published first blocks for a key and a nonce of zeros.
#[test]
fn published_vectors() {
    let (key, nonce) = ([0; 32], [0; 8]);
    let rows = [
        (ChaCha8::new_key(key, nonce).rand(), "3e00ef2f895f40d67f5bb8e81f09a5a12c840ec3ce9a7f3b181be188ef711a1e984ce172b9216f419f445367456d5619314a42a3da86b001387bfdb80e0cfe42"),
        (ChaCha12::new_key(key, nonce).rand(), "9bf49a6a0755f953811fce125f2683d50429c3bb49e074147e0089a52eae155f0564f879d27ae3c02ce82834acfa8c793a629f2ca0de6919610be82f411326be"),
        (ChaCha20::new_key(key, nonce).rand(), FIRST),
    ];
    for (block, published) in rows {
        assert_eq!(block, array_of(published));
    }
}

/// The bytes of 32-bit words, each little-endian.
fn bytes(words: [u32; 16]) -> Vec<u8> {
    words.iter().flat_map(|word| word.to_le_bytes()).collect()
}

#[test]
fn the_initial_state() {
    let state = chacha_init([0; 32], [0; 8]);
    let constants = [1_634_760_805, 857_760_878, 2_036_477_234, 1_797_285_236];
    assert_eq!(state[..4], constants);
    assert_eq!(
        state[..4],
        [0x6170_7865, 0x3320_646e, 0x7962_2d32, 0x6b20_6574]
    );
    assert_eq!(state[4..], [0; 12]);
    assert_eq!(bytes(state)[..16], *b"expand 32-byte k");
    let state = chacha_init(array_of(KEY), [32, 33, 34, 35, 36, 37, 38, 39]);
    assert_eq!(bytes(state)[16..48], bytes_of(KEY));
    assert_eq!(state[12..14], [0, 0]);
    assert_eq!(state[14..], [0x2322_2120, 0x2726_2524]);
}

#[test]
fn rounds_and_blocks() {
    let state = chacha_init(array_of(KEY), [0, 1, 2, 3, 4, 5, 6, 7]);
    assert_eq!(chacha_rounds::<0>(state), state);
    assert_eq!(chacha_unrounds::<0>(state), state);
    assert_eq!(chacha_block::<0>([1; 16]), [2; 16]);
    assert_eq!(chacha_block::<0>([1 << 31; 16]), [0; 16]);
    assert_eq!(chacha_block::<8>([0; 16]), [0; 16]);
    assert_eq!(chacha_block::<254>([0; 16]), [0; 16]);
}

/// The words of each quarter round: four columns, and then four diagonals.
const LINES: [[usize; 4]; 8] = [
    [0, 4, 8, 12],
    [1, 5, 9, 13],
    [2, 6, 10, 14],
    [3, 7, 11, 15],
    [0, 5, 10, 15],
    [1, 6, 11, 12],
    [2, 7, 8, 13],
    [3, 4, 9, 14],
];

/// The rounds, one word at a time, as ChaCha was published.
fn rounds_by_words(rounds: u8, state: [u32; 16]) -> [u32; 16] {
    let mut x = state;
    for _ in 0..rounds / 2 {
        for [a, b, c, d] in LINES {
            for (first, second) in [(16, 12), (8, 7)] {
                x[a] = x[a].wrapping_add(x[b]);
                x[d] = (x[d] ^ x[a]).rotate_left(first);
                x[c] = x[c].wrapping_add(x[d]);
                x[b] = (x[b] ^ x[c]).rotate_left(second);
            }
        }
    }
    x
}

/// The rounds and the block equal those computed word by word, and the inverse of the rounds
/// restores the state.
fn agrees_with_words<const ROUNDS: u8>(state: [u32; 16]) {
    let mixed = chacha_rounds::<ROUNDS>(state);
    let mut sum = rounds_by_words(ROUNDS, state);
    assert_eq!(mixed, sum, "{ROUNDS} rounds");
    assert_eq!(chacha_unrounds::<ROUNDS>(mixed), state, "{ROUNDS} rounds");
    for (word, before) in sum.iter_mut().zip(state) {
        *word = word.wrapping_add(before);
    }
    assert_eq!(chacha_block::<ROUNDS>(state), sum, "{ROUNDS} rounds");
}

#[test]
fn two_bodies_agree() {
    let mut rng = WyRand::new_seed(42);
    for _ in 0..100 {
        let state = [(); 16].map(|()| rng.generate());
        agrees_with_words::<0>(state);
        agrees_with_words::<2>(state);
        agrees_with_words::<8>(state);
        agrees_with_words::<12>(state);
        agrees_with_words::<20>(state);
        agrees_with_words::<254>(state);
    }
}

#[test]
fn counters() {
    let rows = [
        ([0, 0], true, [1, 0]),
        ([0xffff_ffff, 0], true, [0, 1]),
        ([0xffff_ffff, 0xffff_fffe], true, [0, 0xffff_ffff]),
        ([0xffff_fffe, 0xffff_ffff], true, [0xffff_ffff; 2]),
        ([0xffff_ffff; 2], false, [0xffff_ffff; 2]),
    ];
    for (before, more, after) in rows {
        let mut state = [5; 16];
        state[12..14].copy_from_slice(&before);
        let mut expected = state;
        expected[12..14].copy_from_slice(&after);
        assert_eq!(chacha_increment_counter(&mut state), more, "{before:?}");
        assert_eq!(state, expected);
    }
}

#[test]
fn jumps() {
    for (draws, counter) in [
        (0, 1),
        (0xffff_ffff, 4_294_967_296),
        (u64::MAX - 1, u64::MAX),
        (u64::MAX, 0),
    ] {
        let mut rng = ChaCha8::new_key([0; 32], [0; 8]);
        rng.jump(draws);
        assert_eq!(rng.counter(), draws);
        let _ = rng.rand();
        assert_eq!(rng.counter(), counter);
    }
    let mut drawn = ChaCha12::new_key([3; 32], [4; 8]);
    for draws in 0..200 {
        let mut jumped = ChaCha12::new_key([3; 32], [4; 8]);
        jumped.jump(draws);
        assert_eq!(jumped, drawn);
        let _ = drawn.rand();
    }
    let mut round = ChaCha8::at([1; 32], [2; 8], 7);
    round.jump(u64::MAX);
    assert_eq!(round.counter(), 6);
}

/// When the low half of the counter overflows, the high half grows by one. After the largest
/// counter the stream starts again, even in a buffer.
#[test]
fn ends_of_the_counter() {
    let start = chacha_init([0; 32], [0; 8]);
    let mut carried = start;
    carried[13] = 1;
    for (draws, state) in [(0xffff_ffff, carried), (u64::MAX, start)] {
        let mut rng = ChaCha20::at([0; 32], [0; 8], draws);
        let _ = rng.rand();
        assert_eq!(rng.rand()[..], bytes(chacha_block::<20>(state)), "{draws}");
    }

    let first: [u8; 64] = array_of(FIRST);
    let mut rng = ChaCha20::at([0; 32], [0; 8], u64::MAX);
    let mut buffered = BufferedRng::new(rng.clone());
    let (mut plain, mut stream) = ([0; 128], [0; 128]);
    let last = rng.clone().rand();
    rng.fill_bytes(&mut plain);
    assert_eq!(plain[..64], last);
    assert_eq!(plain[64..], first);
    assert_eq!(rng.counter(), 1);
    buffered.fill_bytes(&mut stream);
    assert_eq!(stream, plain);
    assert_eq!(buffered.buffered(), 0);
    assert_eq!(buffered.inner(), &rng);
}
