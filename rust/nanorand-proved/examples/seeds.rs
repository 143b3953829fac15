//! Seeds from a reader (a file, a socket, or bytes that a test provides), from a generator, and from the operating
//! system. If a seed cannot be read, the result is an error, never a seed of zeros.

use nanorand_proved::entropy::EntropyError;
use nanorand_proved::{BufferedRng, ChaCha20Stream, ChaCha8, Pcg64, Rng, WyRand};

fn main() -> Result<(), Box<dyn std::error::Error>> {
    let mut source: &[u8] = &[42, 0, 0, 0, 0, 0, 0, 0, 1, 2, 3];
    let rng = WyRand::new(&mut source)?;
    assert_eq!(rng, WyRand::new_seed(42));
    assert_eq!(source, [1, 2, 3], "exactly eight bytes were taken");
    assert_eq!(Pcg64::new(&mut source), Err(EntropyError::Short));

    let mut seeds = BufferedRng::new(rng);
    // Plain ChaCha8 reads keys; for numbers, take a stream of each key.
    let (first, second) = (ChaCha8::new(&mut seeds)?, ChaCha8::new(&mut seeds)?);
    assert_ne!(first.key(), second.key());

    let pips: u8 = ChaCha20Stream::from_entropy()?.generate_range(1..=6)?;
    println!("another at each run: {pips}");
    Ok(())
}
