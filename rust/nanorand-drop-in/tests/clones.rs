//! Clones of each generator, and fills by ChaCha with any number of rounds.
#![cfg(all(feature = "wyrand", feature = "pcg64", feature = "chacha"))]

use nanorand::{BufferedRng, ChaCha, Pcg64, Rng, WyRand};

/// After any draw a clone has the same text as its original, and draws the same.
fn check<R: Rng<OUTPUT>, const OUTPUT: usize>(mut rng: R, text: fn(&R) -> String) {
    for length in [0, 1, 5, 64, 255, 256, 257, 600] {
        rng.fill_bytes(vec![0; length]);
        let mut clone = rng.clone();
        assert_eq!(text(&clone), text(&rng), "{length}");
        for _ in 0..5 {
            let drawn = (
                rng.rand(),
                rng.generate::<u8>(),
                rng.generate_range(..9_u32),
            );
            let same = (clone.rand(), clone.generate(), clone.generate_range(..9));
            assert_eq!(same, drawn, "{length}");
            assert_eq!(text(&clone), text(&rng), "{length}");
        }
        let (mut bytes, mut wanted) = ([0; 300], [1; 300]);
        rng.fill_bytes(&mut wanted);
        clone.fill_bytes(&mut bytes);
        assert_eq!(bytes, wanted, "{length}");
    }
}

/// A fill writes the bytes of the blocks, in one piece and in pieces of whole blocks.
fn fills<const ROUNDS: u8>() {
    let fresh = ChaCha::<ROUNDS>::new_key([1; 32], [2; 8]);
    for length in [64, 255, 256, 257, 511, 512, 513, 1024, 4097] {
        let mut blocks = fresh.clone();
        let mut wanted = Vec::new();
        while wanted.len() < length {
            wanted.extend(blocks.rand());
        }
        let next = blocks.rand();
        for piece in [64, 128, 192, 256, 320, 512, 4160] {
            let mut rng = fresh.clone();
            let mut bytes = vec![0; length];
            bytes
                .chunks_mut(piece)
                .for_each(|part| rng.fill_bytes(part));
            assert!(bytes == wanted[..length], "{ROUNDS} {length} {piece}");
            assert_eq!(rng.rand(), next, "{ROUNDS} {length} {piece}");
        }
    }
}

#[test]
fn clones() {
    check(WyRand::new_seed(42), |rng| format!("{rng:?}"));
    check(Pcg64::new_seed(42), |rng| format!("{rng:?}"));
    let buffered = BufferedRng::new(Pcg64::new_seed(42));
    check(buffered, |rng| rng.buffered().to_string());
}

#[test]
fn chachas_of_any_rounds() {
    fn check_rounds<const ROUNDS: u8>() {
        let rng = ChaCha::<ROUNDS>::new_key([1; 32], [2; 8]);
        check(rng, |rng| format!("{rng:?}"));
        fills::<ROUNDS>();
    }
    check_rounds::<0>();
    check_rounds::<6>();
    check_rounds::<8>();
    check_rounds::<10>();
    check_rounds::<12>();
    check_rounds::<20>();
    check_rounds::<22>();
}
