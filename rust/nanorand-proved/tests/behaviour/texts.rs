//! The texts of generators and errors.

use crate::common::formats::{self, Texts};
use nanorand_proved::buffer::{RestTooLong, TextRefused};
use nanorand_proved::choices::weighted::WeightError;
use nanorand_proved::entropy::EntropyError;
use nanorand_proved::rand::ChaChaGroups;
use nanorand_proved::shuffles::NotArrangement;
use nanorand_proved::{BufferedRng, PastPeriod, RangeError, Rng, WyRand};
use nanorand_proved::{ChaCha, ChaCha12, ChaCha12Stream, ChaCha20, ChaCha8, Pcg64};
use std::error::Error;

/// Asserts that the value has these texts, whatever the format options are.
fn has_texts(value: &dyn Texts, debug: &str, display: &str) {
    formats::has_texts(value, [debug, display], [200, 3]);
}

#[test]
fn of_wyrand() {
    for (seed, debug) in [
        (0, "WyRand { seed: 0x0 }"),
        (42, "WyRand { seed: 0x2a }"),
        (u64::MAX, "WyRand { seed: 0xffffffffffffffff }"),
    ] {
        has_texts(&WyRand::new_seed(seed), debug, "WyRand");
    }
}

#[test]
fn of_pcg64() {
    for (seed, debug) in [
        (0, "Pcg64 { seed: 0x0, state: 0x0, inc: 0x0 }"),
        (1, "Pcg64 { seed: 0x1, state: 0x0, inc: 0x0 }"),
        (
            1 << 64,
            "Pcg64 { seed: 0x10000000000000000, state: 0x0, inc: 0x0 }",
        ),
        (
            u128::MAX,
            "Pcg64 { seed: 0xffffffffffffffffffffffffffffffff, state: 0x0, inc: 0x0 }",
        ),
    ] {
        has_texts(&Pcg64::new_seed(seed), debug, "Pcg64");
    }
    // A draw from the seed before it leaves this seed, also as the state.
    for seed in [1, 1 << 64, u128::from(u64::MAX) << 64, u128::MAX >> 64] {
        let mut rng = Pcg64::new_seed(seed);
        rng.jump((1 << 126) - 1);
        let inc = rng.seed().wrapping_mul(2).wrapping_add(1);
        let _ = rng.rand();
        let debug = format!("Pcg64 {{ seed: {seed:#x}, state: {seed:#x}, inc: {inc:#x} }}");
        has_texts(&rng, &debug, "Pcg64");
    }
    let mut rng = Pcg64::new_seed(u128::MAX);
    let _ = rng.rand();
    let drawn = "Pcg64 { seed: 0xad254c432166b9e3173c6cc51e71ac88, state: 0xad254c432166b9e3173c6cc51e71ac88, inc: 0xffffffffffffffffffffffffffffffff }";
    has_texts(&rng, drawn, "Pcg64");
}

/// Asserts the texts of a generator at a counter. They do not show the key or the nonce.
fn chacha_has_texts<const ROUNDS: u8>(counter: u64) {
    let rng = ChaCha::<ROUNDS>::at([0xab; 32], [0xcd; 8], counter);
    let debug = format!("ChaCha20 {{ rounds: {ROUNDS}, counter: {counter} }}");
    let display = format!("ChaCha ({ROUNDS} rounds)");
    has_texts(&rng, &debug, &display);
}

#[test]
fn of_chacha() {
    for counter in [0, 1, 4_294_967_296, u64::MAX] {
        chacha_has_texts::<0>(counter);
        chacha_has_texts::<8>(counter);
        chacha_has_texts::<12>(counter);
        chacha_has_texts::<20>(counter);
    }
    let (key, nonce) = ([0xab; 32], [0xcd; 8]);
    let mut rng = ChaCha8::new_key(key, nonce);
    let _ = (rng.rand(), rng.rand());
    has_texts(
        &rng,
        "ChaCha20 { rounds: 8, counter: 2 }",
        "ChaCha (8 rounds)",
    );
    has_texts(
        &ChaCha20::at(key, nonce, 1 << 32),
        "ChaCha20 { rounds: 20, counter: 4294967296 }",
        "ChaCha (20 rounds)",
    );
    has_texts(
        &ChaCha12::at(key, nonce, u64::MAX),
        "ChaCha20 { rounds: 12, counter: 18446744073709551615 }",
        "ChaCha (12 rounds)",
    );
}

/// A buffer's text has the inner generator's text and the number of buffered bytes.
#[test]
fn of_a_buffer() {
    let mut rng = BufferedRng::new(ChaCha8::new_key([1; 32], [2; 8]));
    rng.fill_bytes(&mut [0; 3]);
    let inner = "ChaCha20 { rounds: 8, counter: 1 }";
    let text = format!("BufferedRng {{ inner: {inner}, buffered: 61 }}");
    assert_eq!(format!("{rng:?}"), text);
    let lines = format!("BufferedRng {{\n    inner: {inner},\n    buffered: 61,\n}}");
    assert_eq!(format!("{rng:#?}"), lines);
    let inner = "ChaChaGroups { rounds: 12, counter: 8 }";
    let mut rng = ChaCha12Stream::from_seed([1; 40]);
    for buffered in (0..512).rev() {
        let _ = rng.generate::<u8>();
        let text = format!("BufferedRng {{ inner: {inner}, buffered: {buffered} }}");
        assert_eq!(format!("{rng:?}"), text);
        let lines = format!("BufferedRng {{\n    inner: {inner},\n    buffered: {buffered},\n}}");
        assert_eq!(format!("{rng:#?}"), lines);
    }
}

/// The text that a derived `Debug` writes for a buffer. Its numbers obey the format options.
mod derived {
    #[derive(Debug)]
    #[allow(dead_code)] // only Debug reads the fields
    pub struct BufferedRng<'a, G> {
        pub inner: &'a G,
        pub buffered: usize,
    }
}

#[test]
fn of_a_buffer_by_options() {
    let mut rng = BufferedRng::new(ChaChaGroups::<8>::new_key([1; 32], [2; 8]));
    for buffered in (0..512).rev() {
        let _ = rng.generate::<u8>();
        let inner = rng.inner();
        let wanted = derived::BufferedRng { inner, buffered };
        for (found, wanted) in [
            (format!("{rng:04?}"), format!("{wanted:04?}")),
            (format!("{rng:+?}"), format!("{wanted:+?}")),
            (format!("{rng:x?}"), format!("{wanted:x?}")),
            (format!("{rng:#X?}"), format!("{wanted:#X?}")),
            (format!("{rng:*>5?}"), format!("{wanted:*>5?}")),
        ] {
            assert_eq!(found, wanted);
        }
        for precision in 0..5 {
            let found = format!("{rng:#6.precision$?}");
            assert_eq!(found, format!("{wanted:#6.precision$?}"));
        }
    }
}

/// A generator whose text has as many lines and digits as the options say.
#[derive(Debug)]
#[allow(dead_code)] // only Debug reads the path
struct Own {
    next: u64,
    path: [Option<u8>; 2],
}

impl Rng<2> for Own {
    fn rand(&mut self) -> [u8; 2] {
        self.next += 1;
        [0, 1]
    }
}

/// The format options apply to the inner generator as well.
#[test]
fn of_a_buffer_over_any_generator() {
    let mut rng = BufferedRng::new(Own {
        next: 19,
        path: [None, Some(255)],
    });
    for buffered in [0, 1] {
        if buffered == 1 {
            let _ = rng.generate::<u8>();
        }
        let inner = rng.inner();
        let wanted = derived::BufferedRng { inner, buffered };
        assert_eq!(format!("{rng:?}"), format!("{wanted:?}"));
        assert_eq!(format!("{rng:#?}"), format!("{wanted:#?}"));
        assert_eq!(format!("{rng:x?}"), format!("{wanted:x?}"));
        assert_eq!(format!("{rng:#010X?}"), format!("{wanted:#010X?}"));
    }
}

#[test]
fn of_errors() {
    let rejected = "128 words in a row were rejected";
    let rows: [(&dyn Error, &str, &str); 12] = [
        (&RangeError::Empty, "Empty", "there is nothing to draw from"),
        (&RangeError::Exhausted, "Exhausted", rejected),
        (&WeightError::NoWeight, "NoWeight", "no item has a weight"),
        (
            &WeightError::TooHeavy,
            "TooHeavy",
            "the weights add up to 2^64 or more",
        ),
        (&WeightError::Exhausted, "Exhausted", rejected),
        (
            &EntropyError::Short,
            "Short",
            "the entropy reader ended early",
        ),
        (&EntropyError::Fault, "Fault", "the entropy reader failed"),
        (
            &EntropyError::Unavailable,
            "Unavailable",
            "no entropy source is available",
        ),
        (
            &TextRefused,
            "TextRefused",
            "a generator cannot be read into a string",
        ),
        (
            &RestTooLong,
            "RestTooLong",
            "a buffer holds less than a block",
        ),
        (
            &PastPeriod,
            "PastPeriod",
            "the part ends past the period of the generator",
        ),
        (
            &NotArrangement,
            "NotArrangement",
            "the list is no arrangement",
        ),
    ];
    for (error, debug, display) in rows {
        has_texts(&error, debug, display);
        for width in 0..=100 {
            formats::has_texts(&error, [debug, display], [width, 100 - width]);
        }
        assert!(error.source().is_none());
    }
}
