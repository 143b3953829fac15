//! The proved library and the library that cargo builds, both with `c/include/nanorand.h`, return
//! the same results and leave the same states and memory, for each function, on pseudorandom calls
//! and states: `tests/against_c.sh`.

#[macro_use]
mod common;

use common::{
    one_library, Calls, ChaChaState, Chooser, GroupStream, Library, Stream, Wide, WyRand,
};
use std::fmt::Debug;

/// The second archive that `build.rs` links. `tests/against_c.sh` has renamed its symbols.
fn other_library() -> Library {
    library!("other_")
}

/// A length in bytes, often near that of a word, a block, or one or two groups of blocks.
fn length(chooser: &mut Chooser) -> usize {
    let ends = [0, 1, 8, 16, 64, 128, 256, 512, 1024];
    match chooser.below(3) {
        0 => chooser.below(40),
        1 => (ends[chooser.below(ends.len())] + chooser.below(3)).saturating_sub(1),
        _ => chooser.below(2000),
    }
}

/// A number of items or places, often 0.
fn count(chooser: &mut Chooser) -> usize {
    chooser.below(70).saturating_sub(5)
}

/// A number that is often close to another.
fn beside(chooser: &mut Chooser, number: usize) -> usize {
    match chooser.below(4) {
        0 => number,
        1 => number.wrapping_sub(1),
        2 => number + 1,
        _ => chooser.end() as usize,
    }
}

/// Makes one of thirteen or fourteen calls. The result also has the memory around what the call
/// writes.
fn call<S>(library: &Calls<S>, state: &mut S, mut chooser: Chooser) -> (u32, Vec<u8>, Vec<usize>) {
    let (mut bytes, mut items) = (vec![0xee; 2100], (0..80).collect::<Vec<_>>());
    let [first, last] = [chooser.end(), chooser.end()];
    let mut narrow = first as u32;
    let mut signed = first as i64;
    let mut number = first;
    let chosen = chooser.below(if library.part.is_some() { 14 } else { 13 });
    let places = 7..7 + count(&mut chooser);
    let status = match chosen {
        0 => {
            number = (library.u64)(state);
            0
        }
        1 => {
            let offset = chooser.below(17);
            let end = offset + length(&mut chooser);
            (library.fill_bytes)(state, &mut bytes[offset..end]);
            0
        }
        2 => (library.range_u32)(state, first as u32, last as u32, &mut narrow),
        3 => (library.range_u64)(state, first, last, &mut number),
        4 => (library.range_i64)(state, first as i64, last as i64, &mut signed),
        5 => (library.range_usize)(state, first as usize, last as usize, &mut items[3]),
        6 => (library.shuffle)(state, &mut items[places]),
        7 => (library.shuffle_full)(state, &mut items[places]),
        8 => {
            let count = beside(&mut chooser, places.len());
            (library.sample)(state, count, &mut items[places])
        }
        9 => {
            let count = beside(&mut chooser, places.len());
            let filled = chooser.below(places.len() + 2);
            let mut table = vec![count; chooser.below(4 * places.len() + 2)];
            (library.extend_sample)(state, count, &mut items[places], filled, &mut table)
        }
        10 => {
            number = (library.f64)(state).to_bits();
            0
        }
        11 => {
            number = (library.below)(state, first);
            0
        }
        12 => {
            let size = chooser.below(40);
            let end = 5 + chooser.below(2000);
            let numbers = bytes.iter_mut().enumerate();
            numbers.for_each(|(place, byte)| *byte = (place * 37) as u8);
            (library.shuffle_bytes)(state, &mut bytes[5..end], size)
        }
        _ => library.part.expect("the last call")(state, first, last),
    };
    items.extend([narrow as usize, signed as usize, number as usize]);
    (status, bytes, items)
}

/// Makes pseudorandom calls on pseudorandom states in both libraries.
fn compare<S: Clone + PartialEq + Debug>(
    calls: fn(Library) -> Calls<S>,
    new: fn(&mut Chooser) -> S,
) {
    let (one, other) = (calls(one_library()), calls(other_library()));
    let mut statuses = [0; 4];
    for seed in 0..2000 {
        let mut chooser = Chooser(seed);
        let mut state = new(&mut chooser);
        for _ in 0..20 {
            let (mut same, chosen) = (state.clone(), chooser.number());
            let made = call(&one, &mut state, Chooser(chosen));
            assert_eq!(
                made,
                call(&other, &mut same, Chooser(chosen)),
                "seed {seed}"
            );
            assert_eq!(state, same, "seed {seed}");
            statuses[made.0 as usize] += 1;
        }
    }
    let refused = if one.part.is_some() { 300..4000 } else { 0..1 };
    assert!(
        statuses[0] > 1000 && statuses[1] > 1000 && refused.contains(&statuses[3]),
        "of each status there are {statuses:?}"
    );
}

fn wyrand(chooser: &mut Chooser) -> WyRand {
    WyRand {
        seed: chooser.end(),
    }
}

fn wide(chooser: &mut Chooser) -> Wide {
    let (low, high) = (chooser.end(), chooser.end());
    Wide { low, high }
}

/// A state. Half of them begin near a carry or the end of the counter.
fn chacha(chooser: &mut Chooser) -> ChaChaState {
    let counter = chooser.end().wrapping_sub(chooser.number() % 8);
    let (key, nonce) = (chooser.bytes(), chooser.bytes());
    ChaChaState {
        key,
        nonce,
        counter,
    }
}

/// A number of buffered bytes, sometimes more than a block has.
fn buffered(chooser: &mut Chooser, block: usize) -> u64 {
    match chooser.below(4) {
        0 => chooser.end(),
        1 => (block + chooser.below(3) - 1) as u64,
        _ => chooser.below(block) as u64,
    }
}

fn stream(chooser: &mut Chooser) -> Stream {
    let (chacha, block, buffered) = (chacha(chooser), chooser.bytes(), buffered(chooser, 64));
    Stream {
        chacha,
        block,
        buffered,
    }
}

fn group_stream(chooser: &mut Chooser) -> GroupStream {
    let (chacha, group, buffered) = (chacha(chooser), chooser.bytes(), buffered(chooser, 512));
    GroupStream {
        chacha,
        group,
        buffered,
    }
}

#[test]
fn the_calls_of_wyrand() {
    compare(|library| library.wyrand, wyrand);
}

#[test]
fn the_calls_of_pcg64() {
    compare(|library| library.pcg64, wide);
}

#[test]
fn the_calls_of_chacha() {
    compare(|library| library.chacha8, chacha);
    compare(|library| library.chacha12, chacha);
    compare(|library| library.chacha20, chacha);
}

#[test]
fn the_calls_of_stream() {
    compare(|library| library.stream, stream);
}

#[test]
fn the_calls_of_keystream() {
    compare(|library| library.keystream, group_stream);
}

/// Makes the call in both libraries, with a chooser for each of `seeds` seeds.
fn both<T: PartialEq + Debug>(seeds: u64, call: impl Fn(&Library, Chooser) -> T) {
    let libraries = [one_library(), other_library()];
    for seed in 0..seeds {
        let [one, other] = [0, 1].map(|place: usize| call(&libraries[place], Chooser(seed)));
        assert_eq!(one, other, "seed {seed}");
    }
}

#[test]
fn seeds_and_jumps() {
    both(2000, |library, mut chooser| {
        let (mut rng, mut seed) = ((library.new_seed)(chooser.end()), wide(&mut chooser));
        (library.wyrand_jump)(&mut rng, chooser.end());
        (library.pcg64_jump)(&mut seed, &wide(&mut chooser));
        let made = (library.pcg64_new_seed)(chooser.end(), chooser.end());
        (rng, seed, made)
    });
}

#[test]
fn keys() {
    both(2000, |library, mut chooser| {
        let (key, nonce) = (chooser.bytes(), chooser.bytes());
        let (stream, groups) = (
            (library.stream_new_key)(&key, &nonce),
            (library.keystream_new_key)(&key, &nonce),
        );
        assert_eq!((stream.buffered, groups.buffered), (0, 0));
        ((library.chacha_new_key)(&key, &nonce), stream, groups)
    });
}

#[test]
fn distances() {
    both(2000, |library, mut chooser| {
        let [rng, other] = [0, 1].map(|_| (library.new_seed)(chooser.end()));
        let (seed, end) = (wide(&mut chooser), wide(&mut chooser));
        let mut draws = wide(&mut chooser);
        let status = (library.pcg64_distance)(&seed, &end, &mut draws);
        ((library.wyrand_distance)(&rng, &other), status, draws)
    });
}

#[test]
fn seeds_of_numbers() {
    both(2000, |library, mut chooser| {
        let mut rng = (library.new_seed)(chooser.end());
        let (mut seed, mut state) = (wide(&mut chooser), chacha(&mut chooser));
        let (mut stream, mut groups) = (stream(&mut chooser), group_stream(&mut chooser));
        let number = chooser.end();
        (library.wyrand_seed)(&mut rng, number);
        (library.pcg64_seed)(&mut seed, number);
        let states = library.chacha_seeds.map(|seed| {
            seed(&mut state, number);
            state.clone()
        });
        (library.stream_seed)(&mut stream, number);
        (library.keystream_seed)(&mut groups, number);
        (rng, seed, states, stream, groups)
    });
}

#[test]
fn blocks() {
    both(2000, |library, mut chooser| {
        let mut state = chacha(&mut chooser);
        let blocks = library.blocks.map(|block| {
            let mut out = [0; 64];
            block(&mut state, &mut out);
            out.to_vec()
        });
        (state, blocks)
    });
}

#[test]
fn digests() {
    both(3000, |library, mut chooser| {
        let text: Vec<u8> = (0..length(&mut chooser) + 17)
            .map(|_| chooser.number() as u8)
            .collect();
        let mut digest = [0; 32];
        (library.digest)(&text[chooser.below(17)..], &mut digest);
        digest
    });
}

/// A text of these bytes, of varying length and alignment.
fn text(chooser: &mut Chooser, bytes: &[u8]) -> Vec<u8> {
    (0..chooser.below(20))
        .map(|_| bytes[chooser.below(bytes.len())])
        .collect()
}

#[test]
fn lists() {
    both(20_000, |library, mut chooser| {
        let mut number = 7;
        let status = (library.count)(&text(&mut chooser, b"aaab\n"), &mut number);
        (status, number)
    });
}

/// Counts lists of 0 to 65,537 entrants, with and without an empty line at the end, and draws their
/// places.
#[test]
fn lists_of_many() {
    for entrants in (0..=1025).chain([4095, 4096, 4097, 65_535, 65_536, 65_537]) {
        both(1, |library, _| {
            let mut numbers = [7; 2];
            let list = "Ada\n".repeat(entrants);
            let statuses = [
                (library.count)(list.as_bytes(), &mut numbers[0]),
                (library.count)((list + "\n").as_bytes(), &mut numbers[1]),
            ];
            let mut places = vec![7; entrants];
            let drawn = (library.draw)(b"a seed", &mut places, entrants);
            (statuses, numbers, drawn, places)
        });
    }
}

#[test]
fn draws() {
    both(20_000, |library, mut chooser| {
        // Characters of one and of several bytes, and incomplete ones.
        let letters: [&[u8]; 3] = [b"abc 0", "aé😀".as_bytes(), b"\xff\xc0\0"];
        let kind = chooser.below(3);
        let seed = text(&mut chooser, letters[kind]);
        let mut places = vec![7; 80];
        let there = count(&mut chooser);
        let wanted = beside(&mut chooser, there);
        let status = (library.draw)(&seed, &mut places[3..3 + there], wanted);
        (status, places)
    });
}

#[test]
fn versions() {
    both(1, |library, _| (library.version)());
}
