//! The package `lots` and the static library (the proved one, or without the kit cargo's) return
//! the same digests, count the same entrants, and draw the same places.

use lots::{count_entrants, draw_places, sha256, LotsError};
use nanorand_proved::{Rng, WyRand};

extern "C" {
    fn nanorand_v1_lots_digest(text: *const u8, length: usize, digest: &mut [u8; 32]);
    fn nanorand_v1_lots_count(list: *const u8, length: usize, number: &mut usize) -> u32;
    fn nanorand_v1_lots_draw(
        seed: *const u8,
        seed_length: usize,
        places: *mut usize,
        length: usize,
        wanted: usize,
    ) -> u32;
}

/// Asserts that both compute the same digest of the text.
fn assert_same_digest(text: &[u8]) {
    let mut digest = [0; 32];
    // SAFETY: the pointer and the length are those of the text.
    unsafe { nanorand_v1_lots_digest(text.as_ptr(), text.len(), &mut digest) };
    assert_eq!(sha256::digest(text), digest, "{text:?}");
}

/// More than a million texts, with each length up to 300 equally often.
#[test]
fn digests_of_short_texts() {
    let mut rng = WyRand::new_seed(1);
    for _ in 0..3_400 {
        for length in 0..=300 {
            let mut text = [0; 300];
            rng.fill_bytes(&mut text[..length]);
            assert_same_digest(&text[..length]);
        }
    }
}

/// Lengths around whole blocks and powers of two, and texts of one repeated byte.
#[test]
fn digests_of_long_texts() {
    let mut rng = WyRand::new_seed(2);
    let mut text = vec![0; (1 << 22) + 70];
    rng.fill_bytes(&mut text);
    for power in 9..=22 {
        for length in (1 << power) - 70..(1 << power) + 70 {
            let first = (1 << 22) + 70 - length;
            if power < 17 || length % 23 == 0 {
                assert_same_digest(&text[first..]);
            }
        }
    }
    for byte in 0..=255 {
        assert_same_digest(&vec![byte; 640 + usize::from(byte)]);
    }
}

/// Lists of a few bytes, many of which are line feeds.
#[test]
fn counts_of_entrants() {
    let mut rng = WyRand::new_seed(3);
    for _ in 0..200_000 {
        let mut list = [0; 40];
        let length = rng.range(0..=list.len());
        let feeds = rng.range(1..=20_u8);
        let list = &mut list[..length];
        list.fill_with(|| {
            if rng.range(0..feeds) == 0 {
                b'\n'
            } else {
                rng.generate()
            }
        });
        let mut number = usize::MAX;
        // SAFETY: the pointer and the length are those of the list.
        let status = unsafe { nanorand_v1_lots_count(list.as_ptr(), list.len(), &mut number) };
        let wanted = match count_entrants(list) {
            Ok(count) => (0, count),
            Err(LotsError::EmptyLine(line)) => (LotsError::EmptyLine(line).status().into(), line),
            Err(error) => panic!("{error} of {list:?}"),
        };
        assert_eq!((status, number), wanted, "{list:?}");
    }
}

#[test]
fn draws_of_places() {
    let mut rng = WyRand::new_seed(4);
    for _ in 0..20_000 {
        let size: usize = rng.range(1..=130);
        let seed: String = (0..size).map(|_| rng.range::<char>(..)).collect();
        let mut places = [usize::MAX; 200];
        let length = rng.range(0..=places.len());
        let count = rng.range(0..=length + 1);
        let mut others = places;
        let outcome = draw_places(&seed, &mut places[..length], count);
        // SAFETY: the pointers and lengths are those of the seed and of the places.
        let status = unsafe {
            nanorand_v1_lots_draw(
                seed.as_ptr(),
                seed.len(),
                others.as_mut_ptr(),
                length,
                count,
            )
        };
        assert_eq!(
            outcome.map_err(|error| error.status().into()),
            if status == 0 { Ok(()) } else { Err(status) }
        );
        assert_eq!(places, others, "{seed:?}, {count} of {length}");
    }
}
