//! Blocks of `ChaCha` by each vector body that this machine has, compared with scalar code:
//! `chacha_block` and `four_blocks` on vectors of four words, `eight_blocks` on vectors of eight.
//!
//! Unlike the states of a generator, these states have any sixteen words. The environment variable
//! `NANORAND_STATES` sets how many there are; `tests/workspace.sh` takes a million in a release
//! build.

extern crate std;

use super::super::{eight, EightLanes, Wide};
use super::Words;
use crate::crypto::chacha::{chacha_block, eight_blocks, four_blocks};
use core::iter::once;

type State = [u32; 16];

const EXTREMES: [u32; 6] = [0, 1, 0x7fff_ffff, 0x8000_0000, u32::MAX - 1, u32::MAX];

// What is not set by the environment variable. Miri takes some thousand times as long.
const STATES: &str = if cfg!(miri) { "20" } else { "10000" };
const CORNERS: usize = if cfg!(miri) { 20 } else { usize::MAX };

pub(super) fn number_of_states() -> usize {
    let asked = std::env::var("NANORAND_STATES");
    let states = asked.as_deref().unwrap_or(STATES);
    states.parse().expect("a number of states")
}

/// The permission that `find` grants. Where the body for eight words is plain code, which every
/// processor can run, any permission will do.
fn eight_lanes() -> Option<EightLanes> {
    let plain = cfg!(not(all(target_arch = "x86_64", target_feature = "sse2")));
    EightLanes::find().or(plain.then_some(EightLanes(())))
}

#[allow(clippy::many_single_char_names)] // the cipher's own names
fn quarter_round(x: &mut State, [a, b, c, d]: [usize; 4]) {
    x[a] = x[a].wrapping_add(x[b]);
    x[d] = (x[d] ^ x[a]).rotate_left(16);
    x[c] = x[c].wrapping_add(x[d]);
    x[b] = (x[b] ^ x[c]).rotate_left(12);
    x[a] = x[a].wrapping_add(x[b]);
    x[d] = (x[d] ^ x[a]).rotate_left(8);
    x[c] = x[c].wrapping_add(x[d]);
    x[b] = (x[b] ^ x[c]).rotate_left(7);
}

/// The block of a state, in scalar code, after the cipher's description.
fn scalar_block(rounds: u8, state: State) -> State {
    let mut x = state;
    for _ in 0..rounds / 2 {
        for lines in [
            [[0, 4, 8, 12], [1, 5, 9, 13], [2, 6, 10, 14], [3, 7, 11, 15]],
            [[0, 5, 10, 15], [1, 6, 11, 12], [2, 7, 8, 13], [3, 4, 9, 14]],
        ] {
            for line in lines {
                quarter_round(&mut x, line);
            }
        }
    }
    for (word, first) in x.iter_mut().zip(state) {
        *word = word.wrapping_add(first);
    }
    x
}

/// The state whose counter is greater by `more`, modulo 2^64.
fn later(state: State, more: u64) -> State {
    let counter = (u64::from(state[13]) << 32 | u64::from(state[12])).wrapping_add(more);
    with_counter(state, counter)
}

fn with_counter(mut state: State, counter: u64) -> State {
    state[12] = (counter & 0xffff_ffff) as u32;
    state[13] = (counter >> 32) as u32;
    state
}

/// Computes eight blocks where everything is compiled for the vectors of eight words.
struct Eight<const ROUNDS: u8> {
    state: State,
    blocks: [State; 8],
}

impl<const ROUNDS: u8> Wide for Eight<ROUNDS> {
    #[inline(always)]
    fn fill_eight(&mut self, lanes: EightLanes, _: &mut [u8]) {
        let ((a, b, c, d), (e, f, g, h)) = eight_blocks::<ROUNDS>(lanes, &self.state);
        self.blocks = [a, b, c, d, e, f, g, h];
    }

    #[inline(always)]
    fn next_eight(&mut self, lanes: EightLanes) -> [u8; 512] {
        self.fill_eight(lanes, &mut []);
        [0; 512]
    }
}

fn check_with<const ROUNDS: u8>(lanes: Option<EightLanes>, state: State) {
    let expected = [0, 1, 2, 3, 4, 5, 6, 7].map(|more| scalar_block(ROUNDS, later(state, more)));
    assert_eq!(chacha_block::<ROUNDS>(state), expected[0], "{state:x?}");
    let (a, b, c, d) = four_blocks::<ROUNDS>(&state);
    assert_eq!([a, b, c, d], expected[..4], "{state:x?}");
    if let Some(lanes) = lanes {
        let blocks = [[0; 16]; 8];
        let (mut filled, mut next) = (Eight::<ROUNDS> { state, blocks }, blocks);
        eight::run(lanes, &mut filled, &mut []);
        core::mem::swap(&mut filled.blocks, &mut next);
        assert_eq!(next, expected, "{state:x?}");
        let _ = eight::next(lanes, &mut filled);
        assert_eq!(filled.blocks, expected, "{state:x?}");
    }
}

/// All zeros and all ones; each word at each extreme among zeros and among ones; counters at which
/// a carry, or the wrap to 0, is inside a group of eight or at one of its ends.
fn corners() -> impl Iterator<Item = State> {
    let grounds = [[0; 16], [u32::MAX; 16]];
    let words = grounds.into_iter().flat_map(|ground| {
        (0..16).flat_map(move |place| {
            EXTREMES.into_iter().map(move |word| {
                let mut state = ground;
                state[place] = word;
                state
            })
        })
    });
    let carries = (0..9).flat_map(|before| {
        let near = [1 << 32, 1 << 63, u64::MAX - 0xffff_ffff, 0];
        near.map(|carry: u64| carry.wrapping_sub(before))
    });
    let counters = carries.flat_map(move |counter| {
        let key = [0x9e37_79b9; 16];
        grounds
            .into_iter()
            .chain(once(key))
            .map(move |ground| with_counter(ground, counter))
    });
    grounds.into_iter().chain(words).chain(counters)
}

/// Random words. In half of the states about every second word is an extreme, and in a quarter the
/// counter is near a carry.
fn random_state(words: &mut Words) -> State {
    let kind = words.next() % 4;
    let mut state = [0; 16];
    for word in &mut state {
        *word = words.next();
        if kind % 2 == 0 && words.next() % 2 == 0 {
            *word = EXTREMES[words.next() as usize % 6];
        }
    }
    if kind == 3 {
        state[12] = u32::MAX - words.next() % 9;
        state[13] = [state[13], u32::MAX, 0, state[13]][words.next() as usize % 4];
    }
    state
}

#[test]
fn corner_states() {
    let lanes = eight_lanes();
    assert!(corners().count() > 300);
    for state in corners().take(CORNERS) {
        check_with::<0>(lanes, state);
        check_with::<8>(lanes, state);
        check_with::<20>(lanes, state);
    }
}

#[test]
fn random_states() {
    let (lanes, mut words) = (eight_lanes(), Words(0x2545_f491_4f6c_dd1d));
    for case in 0..number_of_states() {
        let state = random_state(&mut words);
        if case % 2 == 0 {
            check_with::<8>(lanes, state);
        } else {
            check_with::<20>(lanes, state);
        }
    }
}
