//! No call fails without a cause, and none changes what it should not. The sizes, seeds, rounds and
//! format options are spread over all possible ones. No clause of the proved source states this.

use crate::common::formats::{has_texts, Texts};
use crate::common::{ByteScript, Pieces, Rising};
use nanorand_proved::choices::choose_mut;
use nanorand_proved::entropy::{system, EntropyError};
use nanorand_proved::rand::ChaChaGroups;
use nanorand_proved::{
    chacha_stream, BufferedRng, ChaCha, ChaCha20, ChaCha20Stream, Pcg64, RandomGen, Rng, WyRand,
};
use std::fmt::Debug;
use std::io::{ErrorKind, Read};
use std::iter::successors;

const MOST: usize = 2_100_000;

/// A word of any length in bits: with leading zeros or ones, with trailing zeros, a power of two or
/// next to one, with few bits or with many. So a bug between two bounds is found wherever these
/// are.
fn word(rng: &mut WyRand) -> u64 {
    let (drawn, shape): (u64, u64) = (rng.generate(), rng.generate());
    let (length, power) = (shape % 64, 1_u64 << (shape % 64));
    match shape >> 61 {
        0 => drawn >> length,
        1 => !(drawn >> length),
        2 => drawn << length,
        3 => power.wrapping_sub(1),
        4 => power,
        5 => power.wrapping_add(1),
        6 => drawn & rng.next_u64() & rng.next_u64(),
        _ => drawn | rng.next_u64() | rng.next_u64(),
    }
}

/// A number up to `most`, of any length in bits.
fn number(rng: &mut WyRand, most: usize) -> usize {
    let numbers = u64::try_from(most).expect("a size") + 1;
    usize::try_from(word(rng) % numbers).expect("a size")
}

/// A width or a precision. std accepts at most 16 bits.
fn option(rng: &mut WyRand) -> usize {
    number(rng, usize::from(u16::MAX))
}

/// Sizes up to `MOST`: the powers of two with their neighbours and, up to half of `MOST`, sizes
/// each of which is at most a sixteenth above the one before.
fn sizes() -> Vec<usize> {
    let mut rng = WyRand::new_seed(0x5eed);
    let powers = (0..22).map(|bit| 1 << bit);
    let near_powers = powers.flat_map(|power| [power - 1, power, power + 1]);
    let steps = successors(Some(1), |size| Some(size + rng.range(1..=size / 16 + 1)));
    let steps = steps.take_while(|size| *size <= MOST / 2);
    near_powers.chain(steps).chain([MOST]).collect()
}

/// The outcome of `system`, and the number of reads.
fn filled(mut source: Pieces, out: &mut [u8]) -> (Result<(), EntropyError>, usize) {
    (system(&mut source, out), source.reads())
}

/// A reader with as many bytes as are needed, one with fewer, and one that fails. Each returns up
/// to `piece` bytes at a read.
#[test]
fn slices_are_filled() {
    let mut rng = WyRand::new_seed(1);
    let (bytes, mut out) = (vec![7; MOST], vec![0; MOST]);
    for size in (0..=2048).chain(sizes()) {
        let out = &mut out[..size];
        let (piece, left) = (number(&mut rng, size) + 1, number(&mut rng, size));
        let reads_of = |bytes: usize| (bytes + piece - 1) / piece;
        let whole = filled(Pieces::of(&bytes, piece), out);
        assert_eq!(whole, (Ok(()), reads_of(size)), "{size} {piece}");
        if left < size {
            let short = filled(Pieces::of(&bytes[..left], piece), out);
            let expected = (Err(EntropyError::Short), reads_of(left) + 1);
            assert_eq!(short, expected, "{size} {piece} {left}");
            let read = left / piece;
            let kind = ErrorKind::WouldBlock;
            let failed = filled(Pieces::failing(&bytes, piece, read, kind), out);
            let expected = (Err(EntropyError::Fault), read + 1);
            assert_eq!(failed, expected, "{size} {piece} {left}");
        }
    }
}

/// The bytes of drawn words.
fn bytes_of_words(count: usize) -> Vec<u8> {
    let mut rng = WyRand::new_seed(2);
    (0..count)
        .flat_map(|_| word(&mut rng).to_le_bytes())
        .collect()
}

#[test]
fn generators_are_made_of_any_bytes() {
    // A case takes eight words: one for `WyRand`, two for `Pcg64` and five for `ChaCha20`.
    let bytes = bytes_of_words(8 * 10_000);
    for piece in [1, 50] {
        let mut source = Pieces::of(&bytes, piece);
        for case in 0..10_000 {
            assert!(WyRand::new(&mut source).is_ok(), "{case}");
            assert!(Pcg64::new(&mut source).is_ok(), "{case}");
            assert!(ChaCha20::new(&mut source).is_ok(), "{case}");
        }
    }
}

/// A width and a precision.
fn options(rng: &mut WyRand) -> [usize; 2] {
    [option(rng), option(rng)]
}

/// A `ChaCha` with these rounds is made from the reader's bytes. It and its groups have the right
/// texts at any counter.
fn chacha_is_made_and_has_texts<const ROUNDS: u8>(rng: &mut WyRand, source: &mut Pieces) {
    assert!(ChaCha::<ROUNDS>::new(source).is_ok(), "{ROUNDS}");
    let counter = word(rng);
    let generator = ChaCha::<ROUNDS>::at([0; 32], [0; 8], counter);
    let groups = ChaChaGroups::<ROUNDS>::at([0; 32], [0; 8], counter);
    chacha_has_texts(rng, [&generator, &groups], ROUNDS, counter);
}

fn chacha_has_texts(rng: &mut WyRand, made: [&dyn Texts; 2], rounds: u8, counter: u64) {
    let [generator, groups] = made;
    let state = format!("{{ rounds: {rounds}, counter: {counter} }}");
    let debug = format!("ChaCha20 {state}");
    let display = format!("ChaCha ({rounds} rounds)");
    has_texts(generator, [&debug, &display], options(rng));
    let debug = format!("ChaChaGroups {state}");
    let display = format!("ChaCha ({rounds} rounds, by groups)");
    has_texts(groups, [&debug, &display], options(rng));
}

/// The same for each of these numbers of rounds.
macro_rules! chachas {
    ($($rounds:literal)*) => { [$(chacha_is_made_and_has_texts::<$rounds>),*] };
}

const CHACHAS: [fn(&mut WyRand, &mut Pieces); 128] = chachas!(
    0 2 4 6 8 10 12 14 16 18 20 22 24 26 28 30 32 34 36 38 40 42 44 46 48 50 52 54 56 58 60 62 64 66 68 70 72 74
    76 78 80 82 84 86 88 90 92 94 96 98 100 102 104 106 108 110 112 114 116 118 120 122 124 126 128 130 132 134 136
    138 140 142 144 146 148 150 152 154 156 158 160 162 164 166 168 170 172 174 176 178 180 182 184 186 188 190 192
    194 196 198 200 202 204 206 208 210 212 214 216 218 220 222 224 226 228 230 232 234 236 238 240 242 244 246 248
    250 252 254
);

/// The readers have the bytes of words, some of them with a key, a nonce or both of zeros or ones.
#[test]
fn chachas_of_any_rounds() {
    let mut rng = WyRand::new_seed(6);
    let (zeros, ones, words) = ([0; 40], [255; 40], bytes_of_words(5));
    let seeds = [zeros, ones].concat();
    let mixed = [&zeros[..32], &words[..8], &words[..32], &zeros[..8]].concat();
    for chacha in CHACHAS {
        for bytes in [&seeds, &mixed, &bytes_of_words(50)] {
            let mut source = Pieces::of(bytes, 50);
            while source.left() > 0 {
                chacha(&mut rng, &mut source);
            }
        }
    }
}

fn wyrand_has_texts(rng: &mut WyRand) {
    let seed = word(rng);
    let text = format!("WyRand {{ seed: {seed:#x} }}");
    has_texts(&WyRand::new_seed(seed), [&text, "WyRand"], options(rng));
}

/// Before a draw, and after one, which sets all three numbers.
fn pcg64_has_texts(rng: &mut WyRand) {
    let old = u128::from(word(rng)) << 64 | u128::from(word(rng));
    let mut generator = Pcg64::new_seed(old);
    let text = format!("Pcg64 {{ seed: {old:#x}, state: 0x0, inc: 0x0 }}");
    has_texts(&generator, [&text, "Pcg64"], options(rng));
    let _ = generator.rand();
    let (seed, inc) = (generator.seed(), old.wrapping_mul(2).wrapping_add(1));
    let text = format!("Pcg64 {{ seed: {seed:#x}, state: {seed:#x}, inc: {inc:#x} }}");
    has_texts(&generator, [&text, "Pcg64"], options(rng));
}

#[test]
fn generators_have_texts() {
    let mut rng = WyRand::new_seed(3);
    for _ in 0..4000 {
        wyrand_has_texts(&mut rng);
        pcg64_has_texts(&mut rng);
    }
}

/// Some buffered bytes, from one to a block less one, are appended to a vector that has these items
/// and too little capacity for the bytes. The call is the buffer's own `read_to_end` or that of
/// `Read`.
fn is_appended<G: Rng<OUTPUT>, const OUTPUT: usize>(
    rng: &mut WyRand,
    buffer: &mut BufferedRng<G, OUTPUT>,
    items: &[u8],
) {
    let size = items.len();
    let taken = number(rng, OUTPUT - 2) + 1;
    buffer.fill_bytes(&mut vec![0; taken]);
    let buffered = buffer.buffered();
    let room = size + number(rng, buffered.saturating_sub(1));
    let mut out = Vec::with_capacity(room);
    out.extend_from_slice(items);
    let expected = [&out, buffer.rest()].concat();
    let count = if rng.generate() {
        buffer.read_to_end(&mut out).ok()
    } else {
        Read::read_to_end(buffer, &mut out).ok()
    };
    assert_eq!(count, Some(buffered), "{size}");
    assert!(out == expected, "{size}");
}

#[test]
fn buffered_bytes_are_appended() {
    let mut rng = WyRand::new_seed(4);
    let mut buffer = BufferedRng::new(ChaCha20::new_key([1; 32], [2; 8]));
    let mut stream: ChaCha20Stream = chacha_stream([1; 32], [2; 8]);
    let mut wide = BufferedRng::new(Rising::<4096>::new());
    let items = vec![7; MOST];
    for size in sizes() {
        for _ in 0..2 {
            is_appended(&mut rng, &mut buffer, &items[..size]);
            is_appended(&mut rng, &mut stream, &items[..size]);
            is_appended(&mut rng, &mut wide, &items[..size]);
        }
    }
}

/// Writes the chosen item, or none if the choice fails, and the same in `expected`. `rejected`
/// words of 0 come before the word.
fn writes_one<T: Copy>(rejected: usize, word: u64, mark: T, items: &mut [T], expected: &mut [T]) {
    let mut rng = ByteScript::after_zeros(8 * rejected, &word.to_le_bytes());
    let mut same = rng.clone();
    if let Ok(item) = choose_mut(&mut rng, items) {
        *item = mark;
    }
    if let Ok(index) = same.generate_range(..expected.len()) {
        expected[index] = mark;
    }
}

#[test]
fn one_item_is_lent() {
    let mut rng = WyRand::new_seed(5);
    let mut items: Vec<u32> = (0..2_100_000).collect();
    let mut expected = items.clone();
    for size in (1..=1100).chain(sizes()) {
        let (items, expected) = (&mut items[..size], &mut expected[..size]);
        for _ in 0..2 {
            for rejected in [0, number(&mut rng, 129), 128] {
                writes_one(rejected, rng.generate(), rng.generate(), items, expected);
                assert!(items == expected, "{size}");
            }
        }
    }
}

/// `choose_mut` changes only the chosen item, for items of this type.
fn one_is_lent_of<T: RandomGen<WyRand, 8> + Copy + PartialEq + Debug>() {
    let mut rng = WyRand::new_seed(7);
    for size in (1..=70).chain([1000, 4096]) {
        let mut items: Vec<T> = rng.generate_iter().take(size).collect();
        let mut expected = items.clone();
        for _ in 0..8 {
            writes_one(0, rng.generate(), rng.generate(), &mut items, &mut expected);
            assert_eq!(items, expected, "{size}");
        }
    }
}

#[test]
fn one_item_of_any_type_is_lent() {
    one_is_lent_of::<bool>();
    one_is_lent_of::<u8>();
    one_is_lent_of::<u16>();
    one_is_lent_of::<f32>();
    one_is_lent_of::<u64>();
    one_is_lent_of::<u128>();
    one_is_lent_of::<[u8; 3]>();
    one_is_lent_of::<(u8, u64, char)>();
}
