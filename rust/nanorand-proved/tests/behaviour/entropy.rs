//! Entropy readers, and the generators made from them.

use crate::common::kinds::faults;
use crate::common::Pieces;
use nanorand_proved::entropy::{backup, rdseed, system, EntropyError};
use nanorand_proved::rand::ChaChaGroups;
use nanorand_proved::{ChaCha12, ChaCha20, ChaCha20Stream, ChaCha8, Pcg64, WyRand};
use std::io::ErrorKind;

type Maker = fn(&mut Pieces) -> Result<(), EntropyError>;

/// What is made from a reader, with the number of bytes that this takes.
const MAKERS: [(Maker, usize); 6] = [
    (|source| system(source, &mut [0; 11]), 11),
    (|source| WyRand::new(source).map(drop), 8),
    (|source| Pcg64::new(source).map(drop), 16),
    (|source| ChaCha8::new(source).map(drop), 40),
    (|source| ChaCha12::new(source).map(drop), 40),
    (|source| ChaCha20::new(source).map(drop), 40),
];

/// The bytes 1 to 50.
fn counted() -> Vec<u8> {
    (1..=50).collect()
}

#[test]
fn an_empty_slice_reads_nothing() {
    let mut source = Pieces::failing(&[1], 1, 0, ErrorKind::BrokenPipe);
    assert_eq!(system(&mut source, &mut []), Ok(()));
    assert_eq!(source.reads(), 0);
    assert_eq!(source.left(), 1);
}

/// Exactly the bytes that are needed are taken from the reader.
#[test]
fn bytes_taken() {
    let bytes = counted();
    for (make, size) in MAKERS {
        for piece in [1, 7, 50] {
            let mut source = Pieces::of(&bytes, piece);
            assert_eq!(make(&mut source), Ok(()), "{size}");
            assert_eq!(source.left(), 50 - size);
        }
    }
}

/// A reader that ends after any number of bytes that is too small. Nothing is read after its end.
#[test]
fn short_readers() {
    let bytes = counted();
    for (make, size) in MAKERS {
        for length in 0..size {
            for piece in [1, 7] {
                let made = make(&mut Pieces::of(&bytes[..length], piece));
                assert_eq!(made, Err(EntropyError::Short), "{length} of {size}");
            }
            let mut source = Pieces::of(&bytes[..length], 1);
            assert_eq!(make(&mut source), Err(EntropyError::Short));
            assert_eq!(source.reads(), length + 1, "{length} of {size}");
        }
    }
}

/// A reader that fails at one of its reads, with an error of any kind. There is no read after a
/// failure, nor after the last byte that is needed, not even an empty one.
#[test]
fn failing_readers() {
    let bytes = counted();
    for (make, size) in MAKERS {
        for fault in faults() {
            for read in 0..size {
                let mut source = Pieces::failing(&bytes, 1, read, fault);
                let made = make(&mut source);
                assert_eq!(
                    made,
                    Err(EntropyError::Fault),
                    "{fault:?}: {read} of {size}"
                );
                assert_eq!(source.reads(), read + 1, "{read} of {size}");
            }
            let mut source = Pieces::failing(&bytes, 1, size, fault);
            assert_eq!(make(&mut source), Ok(()));
            assert_eq!(source.reads(), size);
        }
    }
}

#[test]
fn unavailable_sources() {
    let mut out = [9, 9];
    assert_eq!(rdseed(&mut out), None);
    assert_eq!(backup(&mut out), Err(EntropyError::Unavailable));
    assert_eq!(out, [9, 9]);
    assert_eq!(rdseed(&mut []), None);
    assert_eq!(backup(&mut []), Err(EntropyError::Unavailable));
}

/// Asserts that a slice of this size is filled with the next bytes, and that no more are taken.
fn fills(bytes: &[u8], size: usize, piece: usize) {
    let mut source = Pieces::of(bytes, piece);
    let mut out = vec![0xee; size];
    assert_eq!(system(&mut source, &mut out), Ok(()), "{size} by {piece}");
    assert_eq!(out, bytes[..size], "{size} by {piece}");
    assert_eq!(source.left() + size, bytes.len());
}

#[test]
fn slices_of_many_sizes() {
    let bytes: Vec<u8> = (0..251).cycle().take(70_001).collect();
    for size in [4096, 70_000] {
        for piece in [1, 7, 4096, 70_000] {
            fills(&bytes, size, piece);
        }
    }
    for size in 0..=300 {
        for piece in [1, 7, 300] {
            fills(&bytes, size, piece);
        }
    }
}

/// Each `new` makes the generator that its constructor makes from the next bytes of the reader.
#[test]
fn generators_of_any_seed() {
    let rising: [u8; 40] = counted()[..40].try_into().expect("40 bytes");
    for bytes in [rising, [0; 40], [0xff; 40]] {
        let (key, nonce) = bytes.split_at(32);
        let key = key.try_into().expect("32 bytes");
        let nonce = nonce.try_into().expect("8 bytes");
        let word = u64::from_le_bytes(bytes[..8].try_into().expect("8 bytes"));
        let wide = u128::from_le_bytes(bytes[..16].try_into().expect("16 bytes"));
        for piece in [1, 7, 40] {
            let source = || Pieces::of(&bytes, piece);
            assert_eq!(WyRand::new(&mut source()), Ok(WyRand::new_seed(word)));
            assert_eq!(Pcg64::new(&mut source()), Ok(Pcg64::new_seed(wide)));
            let made = ChaCha8::new(&mut source());
            assert_eq!(made, Ok(ChaCha8::new_key(key, nonce)));
            let made = ChaCha12::new(&mut source());
            assert_eq!(made, Ok(ChaCha12::new_key(key, nonce)));
            let made = ChaCha20::new(&mut source());
            assert_eq!(made, Ok(ChaCha20::new_key(key, nonce)));
        }
    }
}

/// Each default has a seed of its own.
#[test]
fn defaults_differ() {
    fn differ<G: Default + PartialEq>() -> bool {
        G::default() != G::default()
    }
    assert!(differ::<WyRand>() && differ::<Pcg64>() && differ::<ChaCha20>());
    assert!(differ::<ChaChaGroups<8>>() && differ::<ChaCha20Stream>());
    let rng = ChaChaGroups::<8>::default();
    assert!(rng.key() != [0; 32] && rng.nonce() != [0; 8] && rng.counter() == 0);
}

#[test]
fn errors_of_the_system() {
    for fault in faults() {
        let error = match fault.kind() {
            ErrorKind::Unsupported => EntropyError::Unavailable,
            _ => EntropyError::Fault,
        };
        assert_eq!(EntropyError::from(fault.error()), error, "{fault:?}");
    }
}
