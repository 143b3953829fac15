//! Seeds from numbers: SplitMix64's words, as Sebastiano Vigna's `splitmix64.c` computes them.

use nanorand_proved::rand::chacha_stream_from_u64;
use nanorand_proved::{
    ChaCha, ChaCha20, ChaCha20Stream, ChaCha8, ChaChaStream, Keystream, Pcg64, Rng, WyRand,
};
use std::collections::HashSet;

/// The first words for a number.
const KNOWN: [(u64, [u64; 5]); 3] = [
    (
        0,
        [
            0xe220_a839_7b1d_cdaf,
            0x6e78_9e6a_a1b9_65f4,
            0x06c4_5d18_8009_454f,
            0xf88b_b8a8_724c_81ec,
            0x1b39_896a_51a8_749b,
        ],
    ),
    (
        1_234_567,
        [
            6_457_827_717_110_365_317,
            3_203_168_211_198_807_973,
            9_817_491_932_198_370_423,
            4_593_380_528_125_082_431,
            16_408_922_859_458_223_821,
        ],
    ),
    (
        u64::MAX,
        [
            0xe4d9_7177_1b65_2c20,
            0xe99f_f867_dbf6_82c9,
            0x382f_f84c_b272_81e9,
            0x6d1d_b36c_cba9_82d2,
            0xb4a0_472e_5780_69ae,
        ],
    ),
];

fn bytes_of(words: &[u64]) -> Vec<u8> {
    words.iter().flat_map(|word| word.to_le_bytes()).collect()
}

fn chacha_has<const ROUNDS: u8>(number: u64, words: &[u64; 5]) {
    let rng = ChaCha::<ROUNDS>::seed_from_u64(number);
    assert_eq!(rng.key().to_vec(), bytes_of(&words[..4]));
    assert_eq!(rng.nonce().to_vec(), bytes_of(&words[4..]));
    assert_eq!(rng.counter(), 0);
}

#[test]
fn a_seed_is_the_words_of_its_number() {
    for (number, words) in KNOWN {
        assert_eq!(WyRand::seed_from_u64(number).seed(), words[0]);
        let wide = u128::from(words[0]) | u128::from(words[1]) << 64;
        assert_eq!(Pcg64::seed_from_u64(number), Pcg64::new_seed(wide));
        chacha_has::<8>(number, &words);
        chacha_has::<12>(number, &words);
        chacha_has::<20>(number, &words);
    }
}

/// Each way to make a stream from a number makes the stream of `ChaCha`'s key and nonce.
fn streams_of<const ROUNDS: u8>(number: u64) {
    let inner = ChaCha::<ROUNDS>::seed_from_u64(number);
    let stream: ChaChaStream<ROUNDS> = Keystream::new_key(inner.key(), inner.nonce());
    assert_eq!(ChaChaStream::seed_from_u64(number), stream);
    assert_eq!(
        <ChaChaStream<ROUNDS> as Keystream<512>>::seed_from_u64(number),
        stream
    );
    assert_eq!(chacha_stream_from_u64(number), stream);
    assert_eq!(stream.position(), 0);
}

#[test]
fn a_stream_is_that_of_its_number() {
    for (number, _) in KNOWN {
        streams_of::<8>(number);
        streams_of::<12>(number);
        streams_of::<20>(number);
    }
}

/// Neighbouring numbers, numbers that differ in one bit, and large ones.
#[test]
fn different_numbers_give_different_seeds() {
    let bits = (0..64).map(|bit| 1 << bit);
    let numbers: HashSet<u64> = (0..5000)
        .chain(u64::MAX - 5000..=u64::MAX)
        .chain(bits)
        .collect();
    let seeds: HashSet<u64> = numbers
        .iter()
        .map(|number| WyRand::seed_from_u64(*number).seed())
        .collect();
    assert_eq!(seeds.len(), numbers.len());
    let wide: HashSet<u128> = numbers
        .iter()
        .map(|number| Pcg64::seed_from_u64(*number).seed())
        .collect();
    assert_eq!(wide.len(), numbers.len());
}

/// Streams of neighbouring seeds agree no more than by chance: in half of the bits of their first
/// words.
#[test]
fn neighbours_share_no_more_than_half_of_their_bits() {
    let agreeing = |first: &dyn Fn(u64) -> u64| -> u64 {
        let words: Vec<u64> = (0..=10_000).map(first).collect();
        let pairs = words.windows(2);
        pairs
            .map(|pair| u64::from((pair[0] ^ !pair[1]).count_ones()))
            .sum()
    };
    let firsts: [&dyn Fn(u64) -> u64; 5] = [
        &|number| WyRand::seed_from_u64(number).generate(),
        &|number| Pcg64::seed_from_u64(number).generate(),
        &|number| ChaCha8::seed_from_u64(number).generate(),
        &|number| ChaCha20::seed_from_u64(number).generate(),
        &|number| ChaCha20Stream::seed_from_u64(number).generate(),
    ];
    for first in firsts {
        // 320,000 of 640,000 bits, plus or minus six standard deviations of 400.
        let shared = agreeing(first);
        assert!((317_600..322_400).contains(&shared), "{shared}");
    }
}
