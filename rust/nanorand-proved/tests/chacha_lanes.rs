//! `ChaCha` with vectors, compared with `ChaCha` on plain 32-bit words, which is written here from
//! the cipher's description: single blocks; four blocks side by side, as in fills of 256 bytes and
//! more; and eight, as in fills of 512 bytes and more if the processor has AVX2 and the crate its
//! feature std.
//!
//! The environment variable `NANORAND_STATES` sets how many states there are; `tests/workspace.sh`
//! takes a million in a release build.

use nanorand_proved::crypto::chacha::{chacha_block, chacha_rounds, chacha_unrounds};
use nanorand_proved::{ChaCha, Rng};

// What is not set by the environment variable.
const STATES: &str = "10000";

// The numbers of rounds of the three generators. Rarer ones are 0, 2 and the maximum.
const COMMON: [u8; 3] = [8, 12, 20];

fn number_of_states() -> usize {
    let asked = std::env::var("NANORAND_STATES");
    let states = asked.as_deref().unwrap_or(STATES);
    states.parse().expect("a number of states")
}

// Random numbers that choose the cases: xorshift, which is not part of this library.
struct Words(u64);

impl Words {
    fn new() -> Self {
        Self(0x2545_f491_4f6c_dd1d)
    }

    fn next(&mut self) -> u32 {
        self.0 ^= self.0 << 13;
        self.0 ^= self.0 >> 7;
        self.0 ^= self.0 << 17;
        u32::try_from(self.0 >> 32).unwrap()
    }

    // Some words are ones for which a bug would lose carries or bits.
    fn word(&mut self) -> u32 {
        match self.next() % 16 {
            0 => 0,
            1 => u32::MAX,
            2 => 1 << (self.next() % 32),
            _ => self.next(),
        }
    }

    fn state(&mut self) -> [u32; 16] {
        let mut state = [0; 16];
        for word in &mut state {
            *word = self.word();
        }
        state
    }

    // With many counters a carry goes into the high half, or the counter wraps.
    fn counter(&mut self) -> u64 {
        let near = u64::from(self.next() % 16).wrapping_sub(8);
        match self.next() % 4 {
            0 => near,
            1 => (u64::from(self.next()) << 32).wrapping_add(near),
            _ => u64::from(self.next()) << 32 | u64::from(self.next()),
        }
    }
}

#[allow(clippy::many_single_char_names)] // the cipher's own names
fn quarter_round(x: &mut [u32; 16], [a, b, c, d]: [usize; 4]) {
    x[a] = x[a].wrapping_add(x[b]);
    x[d] = (x[d] ^ x[a]).rotate_left(16);
    x[c] = x[c].wrapping_add(x[d]);
    x[b] = (x[b] ^ x[c]).rotate_left(12);
    x[a] = x[a].wrapping_add(x[b]);
    x[d] = (x[d] ^ x[a]).rotate_left(8);
    x[c] = x[c].wrapping_add(x[d]);
    x[b] = (x[b] ^ x[c]).rotate_left(7);
}

fn plain_rounds(rounds: u8, input: [u32; 16]) -> [u32; 16] {
    let mut x = input;
    for _ in 0..rounds / 2 {
        for column in 0..4 {
            quarter_round(&mut x, [column, 4 + column, 8 + column, 12 + column]);
        }
        for first in 0..4 {
            let diagonal = [
                first,
                4 + (first + 1) % 4,
                8 + (first + 2) % 4,
                12 + (first + 3) % 4,
            ];
            quarter_round(&mut x, diagonal);
        }
    }
    x
}

fn plain_block(rounds: u8, input: [u32; 16]) -> [u32; 16] {
    let mut x = plain_rounds(rounds, input);
    for (word, first) in x.iter_mut().zip(input) {
        *word = word.wrapping_add(first);
    }
    x
}

fn block(rounds: u8, input: [u32; 16]) -> [u32; 16] {
    match rounds {
        0 => chacha_block::<0>(input),
        2 => chacha_block::<2>(input),
        8 => chacha_block::<8>(input),
        12 => chacha_block::<12>(input),
        20 => chacha_block::<20>(input),
        254 => chacha_block::<254>(input),
        _ => unreachable!(),
    }
}

fn words_of(bytes: &[u8]) -> Vec<u32> {
    let word = |four: &[u8]| u32::from_le_bytes(four.try_into().unwrap());
    bytes.chunks_exact(4).map(word).collect()
}

// The state for a generator's next block, from its public methods.
fn state_of<const ROUNDS: u8>(rng: &ChaCha<ROUNDS>, counter: u64) -> [u32; 16] {
    let mut bytes = b"expand 32-byte k".to_vec();
    bytes.extend(rng.key());
    bytes.extend(counter.to_le_bytes());
    bytes.extend(rng.nonce());
    words_of(&bytes).try_into().unwrap()
}

fn generator<const ROUNDS: u8>(words: &mut Words) -> ChaCha<ROUNDS> {
    let mut key = [0; 32];
    let mut nonce = [0; 8];
    for bytes in key.chunks_exact_mut(4).chain(nonce.chunks_exact_mut(4)) {
        bytes.copy_from_slice(&words.word().to_le_bytes());
    }
    ChaCha::at(key, nonce, words.counter())
}

// A fill: each block of it, and the counter after it.
fn check_fill<const ROUNDS: u8>(mut rng: ChaCha<ROUNDS>, length: usize) -> usize {
    let first = rng.counter();
    let mut bytes = vec![0; length];
    rng.fill_bytes(&mut bytes);
    let mut counter = first;
    for filled in bytes.chunks(64) {
        let expected = plain_block(ROUNDS, state_of(&rng, counter));
        let expected: Vec<u8> = expected.iter().flat_map(|x| x.to_le_bytes()).collect();
        assert_eq!(filled, &expected[..filled.len()], "from {first} on");
        counter = counter.wrapping_add(1);
    }
    assert_eq!(rng.counter(), counter);
    bytes.chunks(64).count()
}

// Fills of all lengths up to 32 blocks, most of them whole groups of four: a fifth of the states.
fn check_fills<const ROUNDS: u8>(words: &mut Words) {
    let blocks = number_of_states() / 5;
    let mut checked = 0;
    while checked < blocks {
        let rng = generator::<ROUNDS>(words);
        let length = match words.next() % 4 {
            0 => words.next() as usize % 2048,
            _ => 256 * (1 + words.next() as usize % 8),
        };
        checked += check_fill(rng, length);
    }
}

// Two fifths of the states.
#[test]
fn single_blocks() {
    let mut words = Words::new();
    for case in 0..number_of_states() * 2 / 5 {
        let rounds = COMMON[case % 3];
        let state = words.state();
        assert_eq!(block(rounds, state), plain_block(rounds, state));
    }
}

#[test]
fn single_blocks_of_other_rounds() {
    let mut words = Words::new();
    for _ in 0..2000 {
        let state = words.state();
        for rounds in [0, 2, 254] {
            assert_eq!(block(rounds, state), plain_block(rounds, state));
        }
    }
}

fn check_back<const ROUNDS: u8>(state: [u32; 16]) {
    let mixed = chacha_rounds::<ROUNDS>(state);
    assert_eq!(mixed, plain_rounds(ROUNDS, state));
    assert_eq!(chacha_unrounds::<ROUNDS>(mixed), state);
}

#[test]
fn rounds_and_back() {
    let mut words = Words::new();
    for _ in 0..5000 {
        let state = words.state();
        check_back::<0>(state);
        check_back::<2>(state);
        check_back::<8>(state);
        check_back::<20>(state);
    }
    check_back::<254>(words.state());
}

#[test]
fn fills_with_8_rounds() {
    check_fills::<8>(&mut Words::new());
}

#[test]
fn fills_with_12_rounds() {
    check_fills::<12>(&mut Words::new());
}

#[test]
fn fills_with_20_rounds() {
    check_fills::<20>(&mut Words::new());
}

#[test]
fn fills_with_other_rounds() {
    let mut words = Words::new();
    for length in [0, 1, 64, 255, 256, 257, 511, 512, 513, 768, 1100, 2048] {
        check_fill(generator::<0>(&mut words), length);
        check_fill(generator::<2>(&mut words), length);
        check_fill(generator::<4>(&mut words), length);
        check_fill(generator::<6>(&mut words), length);
        check_fill(generator::<10>(&mut words), length);
        check_fill(generator::<14>(&mut words), length);
        check_fill(generator::<16>(&mut words), length);
        check_fill(generator::<252>(&mut words), length);
        check_fill(generator::<254>(&mut words), length);
    }
}

#[test]
fn fills_of_every_length() {
    let mut words = Words::new();
    for length in 0..=2000 {
        check_fill(generator::<8>(&mut words), length);
    }
}

// Each counter with which a carry, or the wrap to 0, is inside a group or at one of its ends.
#[test]
fn counters_that_wrap_inside_a_group() {
    let carries = (1 << 32) - 9..=1_u64 << 32;
    for counter in carries.chain(u64::MAX - 8..=u64::MAX) {
        for length in [256, 512, 768, 1024] {
            check_fill(ChaCha::<8>::at([7; 32], [1; 8], counter), length);
            check_fill(ChaCha::<20>::at([7; 32], [1; 8], counter), length);
        }
    }
}
