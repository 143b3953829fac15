//! What comes from the system: seeds, bytes, and a thread's generator.

use nanorand::{entropy, BufferedRng, ChaCha, ChaCha20, Rng, WyRand};
use std::fmt::Debug;

/// Two generators seeded by the system differ, even in each half of their seeds.
fn differ<R: Rng<OUTPUT> + Debug, const OUTPUT: usize>(new: [fn() -> R; 2]) {
    let mut words: Vec<u64> = new
        .iter()
        .cycle()
        .take(8)
        .map(|new| new().generate())
        .collect();
    words.sort_unstable();
    words.dedup();
    assert_eq!(words.len(), 8, "{:?}", new[0]());
}

#[test]
fn seeds() {
    differ([WyRand::new, WyRand::default]);
    differ([nanorand::Pcg64::new, nanorand::Pcg64::default]);
    differ([ChaCha20::new, ChaCha20::default]);
    assert_ne!(BufferedRng::<WyRand, 8>::default().rand(), [0; 8]);
    // A block of no rounds is the state with each word doubled. The state begins with the
    // constants, and its counter is 0.
    let states: Vec<_> = (0..20).map(|_| ChaCha::<0>::new().rand()).collect();
    for place in (16..48).chain(56..64) {
        assert!(states.iter().any(|state| state[place] != states[0][place]));
    }
}

/// Exactly the bytes of the slice are filled, whatever its length.
#[test]
fn bytes() {
    for length in [0, 1, 31, 32, 33, 64, 255, 256, 257, 600] {
        let mut seen = vec![0; length + 1];
        for _ in 0..20 {
            let mut bytes = vec![0; length + 1];
            #[cfg(not(feature = "getrandom"))]
            assert!(entropy::system(&mut bytes[..length]));
            #[cfg(feature = "getrandom")]
            entropy::system(&mut bytes[..length]);
            seen.iter_mut()
                .zip(bytes)
                .for_each(|(seen, byte)| *seen |= byte);
        }
        assert_eq!(seen.pop(), Some(0));
        assert!(seen.iter().all(|byte| *byte != 0), "{length}");
    }
    let mut bytes = [7; 3];
    assert_eq!((entropy::rdseed(&mut bytes), bytes), (None, [7; 3]));
}

/// A read fills the whole slice, whatever its length.
#[cfg(feature = "std")]
#[test]
fn reads() {
    use std::io::Read;

    for length in [0, 1, 8, 9, 4096, 65_535, 65_536, 65_537, 1_000_003] {
        let (mut reader, mut same) = (
            BufferedRng::new(WyRand::new_seed(1)),
            BufferedRng::new(WyRand::new_seed(1)),
        );
        let (mut bytes, mut wanted) = (vec![0; length], vec![0; length]);
        assert_eq!(reader.read(&mut bytes).ok(), Some(length));
        same.fill_bytes(&mut wanted);
        assert!(bytes == wanted, "{length}");
    }
}

/// All handles of a thread are one generator, and each thread has its own.
#[cfg(feature = "tls")]
#[test]
fn threads() {
    use nanorand::{tls_rng, SeedableRng};

    let (mut one, mut other, mut alone) = (tls_rng(), tls_rng().clone(), WyRand::new_seed(42));
    one.reseed(42_u64.to_le_bytes());
    assert_eq!(other.generate::<u64>(), alone.generate::<u64>());
    assert_eq!(one.rand(), alone.rand());
    let elsewhere = std::thread::spawn(|| tls_rng().generate::<u64>());
    assert_ne!(elsewhere.join().ok(), Some(alone.generate()));
}

#[cfg(feature = "zeroize")]
#[test]
fn wiped() {
    use nanorand::Pcg64;
    use zeroize::Zeroize;

    let mut rngs = (
        WyRand::new_seed(1),
        Pcg64::new_seed(1),
        ChaCha20::new_key([1; 32], [1; 8]),
    );
    let _ = (rngs.1.rand(), rngs.2.rand());
    rngs.0.zeroize();
    rngs.1.zeroize();
    rngs.2.zeroize();
    assert_eq!(
        format!("{:?}", rngs.0),
        format!("{:?}", WyRand::new_seed(0))
    );
    assert_eq!(format!("{:?}", rngs.1), format!("{:?}", Pcg64::new_seed(0)));
    assert_eq!(rngs.2.rand(), [0; 64]); // of a state of zeros, even for the constants
    assert!(std::mem::needs_drop::<(WyRand,)>() && std::mem::needs_drop::<ChaCha20>());
    assert!(std::mem::needs_drop::<Pcg64>());
}
