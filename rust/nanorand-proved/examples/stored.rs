//! Stores generators as numbers and bytes. The restored generators continue where the stored ones stopped.

use nanorand_proved::{BufferedRng, ChaCha20, ChaCha20Stream, Pcg64, Rng, WyRand};
use std::error::Error;

fn main() -> Result<(), Box<dyn Error>> {
    let mut wyrand = WyRand::seed_from_u64(1);
    let _ = wyrand.generate::<u64>();
    let saved: u64 = wyrand.seed();
    assert_eq!(WyRand::new_seed(saved).next_u64(), wyrand.next_u64());

    let mut pcg64 = Pcg64::seed_from_u64(1);
    let _ = pcg64.generate::<u64>();
    let saved: u128 = pcg64.seed();
    assert_eq!(Pcg64::new_seed(saved).next_u64(), pcg64.next_u64());

    let mut stream = ChaCha20Stream::new_key([1; 32], [2; 8]);
    let _ = stream.generate::<u64>();
    let (key, nonce, byte) = (stream.key(), stream.nonce(), stream.position());
    let mut restored = ChaCha20Stream::new_key(key, nonce);
    restored.seek(byte);
    assert_eq!(restored.next_u64(), stream.next_u64());

    // A plain ChaCha20 computes a whole block for this number. A stream takes 8 of its 64 bytes.
    let mut chacha = ChaCha20::new_key([1; 32], [2; 8]);
    let _ = chacha.generate::<u64>();
    let (key, nonce, counter) = (chacha.key(), chacha.nonce(), chacha.counter());
    assert_eq!(ChaCha20::at(key, nonce, counter), chacha);

    let mut buffered = BufferedRng::new(wyrand);
    let _ = buffered.generate::<[u8; 3]>();
    let (saved, rest) = (buffered.inner().seed(), buffered.rest().to_vec());
    println!("seed {saved:#x}, bytes {rest:?}");
    let mut restored = BufferedRng::with_rest(WyRand::new_seed(saved), &rest)?;
    assert_eq!(restored.generate::<u128>(), buffered.generate::<u128>());
    assert_eq!(restored, buffered);
    Ok(())
}
