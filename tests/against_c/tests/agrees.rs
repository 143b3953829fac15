//! The Rust crate and a library with the functions of `c/include/nanorand.h` return the same
//! results and leave the same states, on pseudorandom calls: `tests/against_c.sh`.
//!
//! A word is a random number of 32 or 64 bits. The error after 128 rejected words in a row is not
//! tested, because no seed with such words is known.

mod common;

use common::{Calls, ChaChaState, Chooser, GroupStream, Stream, Wide, WyRand};
use nanorand_proved::{
    self as proved, BufferedRng, ChaCha, ChaCha20, ChaCha20Stream, ChaChaGroups, Parts, PastPeriod,
    Pcg64, RandomRange, RangeError, Rng,
};
use std::fmt::{Debug, Display};

/// The result of the crate that corresponds to a status of the library.
fn answer<T>(status: u32, value: T) -> Result<T, RangeError> {
    match status {
        0 => Ok(value),
        1 => Err(RangeError::Empty),
        _ => Err(RangeError::Exhausted),
    }
}

/// A generator of the crate, and the library's state for it.
struct Pair<G, S, const N: usize> {
    rng: G,
    state: S,
    calls: Calls<S>,
    state_of: fn(&G) -> S,
}

impl<G: Rng<N>, S: PartialEq + Debug, const N: usize> Pair<G, S, N> {
    /// Asserts that both states are the same after a call.
    fn same(&self, call: impl Display) {
        assert_eq!((self.state_of)(&self.rng), self.state, "{call}");
    }

    fn bytes(&mut self, length: usize) {
        let (mut some, mut others) = (vec![1; length], vec![2; length]);
        self.rng.fill_bytes(&mut some);
        (self.calls.fill_bytes)(&mut self.state, &mut others);
        assert_eq!(some, others);
        self.same(format_args!("{length} bytes"));
        assert_eq!(
            self.rng.generate::<u64>(),
            (self.calls.u64)(&mut self.state)
        );
        let fraction = (self.calls.f64)(&mut self.state);
        assert_eq!(
            self.rng.generate::<f64>().to_bits(),
            fraction.to_bits(),
            "{fraction}"
        );
    }

    fn items(&mut self, count: usize) {
        let mut some: Vec<usize> = (0..count).collect();
        let mut others = some.clone();
        let status = (self.calls.shuffle)(&mut self.state, &mut others);
        assert_eq!(self.rng.shuffle(&mut some), answer(status, ()));
        assert_eq!(some, others);
        let status = (self.calls.shuffle_full)(&mut self.state, &mut others);
        assert_eq!(
            proved::shuffles::shuffle_full(&mut self.rng, &mut some),
            answer(status, ())
        );
        assert_eq!(some, others);
        let status = (self.calls.sample)(&mut self.state, 2 * count, &mut others);
        assert_eq!(self.rng.sample(2 * count, &mut some), answer(status, ()));
        assert_eq!(some, others);
        let mut arrays: Vec<[u8; 3]> = (0..count).map(|item| [item as u8; 3]).collect();
        let mut bytes = arrays.concat();
        let status = (self.calls.shuffle_bytes)(&mut self.state, &mut bytes, 3);
        assert_eq!(self.rng.shuffle(&mut arrays), answer(status, ()));
        assert_eq!(arrays.concat(), bytes);
        let (filled, mut table) = (count / 3, vec![7; 3 * count]);
        let status =
            (self.calls.extend_sample)(&mut self.state, count, &mut others, filled, &mut table);
        assert_eq!(
            proved::samples::extend_sample(&mut self.rng, count, &mut some, filled, &mut []),
            answer(status, ())
        );
        assert_eq!(some, others);
        self.same(format_args!("{count} items"));
    }

    fn range<T: RandomRange<G, N> + Copy + PartialEq + Debug>(
        &mut self,
        draw: fn(&mut S, T, T, &mut T) -> u32,
        [first, last]: [T; 2],
    ) {
        let mut number = first;
        let status = draw(&mut self.state, first, last, &mut number);
        let drawn = self.rng.generate_range(first..=last);
        assert_eq!(drawn, answer(status, number), "{first:?} to {last:?}");
        self.same(format_args!("{first:?} to {last:?}"));
    }

    fn below(&mut self, n: u64) {
        let number = (self.calls.below)(&mut self.state, n);
        match self.rng.generate_range(0..n) {
            Ok(drawn) => assert_eq!(drawn, number, "below {n}"),
            Err(RangeError::Empty) => assert_eq!(number, 0, "below {n}"),
            Err(RangeError::Exhausted) => assert_eq!(number, n, "below {n}"),
        }
        self.same(format_args!("below {n}"));
    }

    fn ranges(&mut self, chooser: &mut Chooser) {
        self.below(chooser.end());
        let mut ends = || [chooser.end(), chooser.end()];
        self.range(self.calls.range_u32, ends().map(|end| end as u32));
        self.range(self.calls.range_u64, ends());
        self.range(self.calls.range_i64, ends().map(|end| end as i64));
        self.range(self.calls.range_usize, ends().map(|end| end as usize));
    }
}

/// Moves both to the beginning of parts that `seed` chooses.
fn parts<G: Parts<N>, S: PartialEq + Debug, const N: usize>(pair: &mut Pair<G, S, N>, seed: u32) {
    let mut chooser = Chooser(u64::from(seed));
    let part = pair.calls.part.expect("a call of parts");
    for _ in 0..20 {
        let (index, draws) = (chooser.end(), chooser.end());
        let status = part(&mut pair.state, index, draws);
        let moved = pair.rng.part(index, draws).map(|part| pair.rng = part);
        let refused = if status == 3 { Err(PastPeriod) } else { Ok(()) };
        assert_eq!(moved, refused, "status {status}");
        pair.same(format_args!("part {index} of {draws} draws"));
    }
}

/// Makes the same calls on generators of the crate, made by `new`, and on the library's states for
/// them. Then come jumps, by powers of two.
fn compare<G: Rng<N>, S: PartialEq + Debug, const N: usize>(
    calls: fn() -> Calls<S>,
    new: fn(&mut Chooser) -> G,
    state_of: fn(&G) -> S,
    moves: fn(&mut Pair<G, S, N>, u32),
) {
    for seed in 0..20 {
        let mut chooser = Chooser(seed);
        let rng = new(&mut chooser);
        let (state, calls) = (state_of(&rng), calls());
        let mut pair = Pair {
            rng,
            state,
            calls,
            state_of,
        };
        (0..=600).for_each(|length| pair.bytes(length));
        (0..=64).for_each(|count| pair.items(count));
        (0..2000).for_each(|_| pair.ranges(&mut chooser));
        for power in 0..128 {
            moves(&mut pair, power);
            pair.same(format_args!("a jump by 2^{power}"));
        }
    }
}

#[test]
fn wyrand() {
    compare(
        || common::one_library().wyrand,
        |chooser| proved::WyRand::from_seed(chooser.bytes()),
        |rng| WyRand { seed: rng.seed() },
        |pair, power| {
            pair.rng.jump(1_u64.wrapping_shl(power));
            (common::one_library().wyrand_jump)(&mut pair.state, 1_u64.wrapping_shl(power));
            parts(pair, power);
        },
    );
}

fn wide(number: u128) -> Wide {
    let [low, high] = [number, number >> 64].map(|half| half as u64);
    Wide { low, high }
}

#[test]
fn pcg64() {
    compare(
        || common::one_library().pcg64,
        |chooser| Pcg64::from_seed(chooser.bytes()),
        |rng| wide(rng.seed()),
        |pair, power| {
            pair.rng.jump(1 << power);
            (common::one_library().pcg64_jump)(&mut pair.state, &wide(1 << power));
            parts(pair, power);
        },
    );
}

/// A generator. Half of them begin near a carry or the end of the counter.
fn chacha<const ROUNDS: u8>(chooser: &mut Chooser) -> ChaCha<ROUNDS> {
    let counter = chooser.end().wrapping_sub(chooser.number() % 8);
    ChaCha::at(chooser.bytes(), chooser.bytes(), counter)
}

fn chacha_state<const ROUNDS: u8>(rng: &ChaCha<ROUNDS>) -> ChaChaState {
    let (key, nonce, counter) = (rng.key(), rng.nonce(), rng.counter());
    ChaChaState {
        key,
        nonce,
        counter,
    }
}

fn compare_chacha<const ROUNDS: u8>(calls: fn() -> Calls<ChaChaState>) {
    compare(calls, chacha::<ROUNDS>, chacha_state, parts);
}

#[test]
fn chacha8() {
    compare_chacha::<8>(|| common::one_library().chacha8);
}

#[test]
fn chacha12() {
    compare_chacha::<12>(|| common::one_library().chacha12);
}

#[test]
fn chacha20() {
    compare_chacha::<20>(|| common::one_library().chacha20);
}

fn stream_state(rng: &BufferedRng<ChaCha20, 64>) -> Stream {
    let (chacha, buffered) = (chacha_state(rng.inner()), rng.buffered() as u64);
    let mut block = [0; 64];
    block[64 - rng.buffered()..].copy_from_slice(rng.rest());
    Stream {
        chacha,
        block,
        buffered,
    }
}

#[test]
fn stream() {
    compare(
        || common::one_library().stream,
        |chooser| BufferedRng::new(chacha(chooser)),
        stream_state,
        |_, _| (),
    );
}

fn keystream_state(rng: &ChaCha20Stream) -> GroupStream {
    let (inner, buffered) = (rng.inner(), rng.buffered() as u64);
    let (key, nonce, counter) = (inner.key(), inner.nonce(), inner.counter());
    let chacha = ChaChaState {
        key,
        nonce,
        counter,
    };
    let mut group = [0; 512];
    group[512 - rng.buffered()..].copy_from_slice(rng.rest());
    GroupStream {
        chacha,
        group,
        buffered,
    }
}

/// A generator. Half of them begin near a carry or the end of the counter.
fn groups(chooser: &mut Chooser) -> ChaChaGroups<20> {
    let rng = chacha::<20>(chooser);
    ChaChaGroups::at(rng.key(), rng.nonce(), rng.counter())
}

#[test]
fn keystream() {
    compare(
        || common::one_library().keystream,
        |chooser| BufferedRng::new(groups(chooser)),
        keystream_state,
        parts,
    );
}
