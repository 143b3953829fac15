//! Runs calls on a generator with a seed, in plain or buffered mode.

use crate::command::{Mode, SeededGenerator};
use nanorand_proved::replay::{replay, Answer, Call};
use nanorand_proved::{BufferedRng, ChaCha, Pcg64, SeedableRng, WyRand};

/// Runs the calls on the generator with its seed, or on a `BufferedRng` around it in buffered mode.
///
/// # Panics
///
/// Panics if `calls` and `answers` differ in length.
pub fn replay_seeded(
    generator: SeededGenerator,
    mode: Mode,
    calls: &[Call],
    items: &mut [u64],
    answers: &mut [Answer],
) {
    assert!(
        answers.len() == calls.len(),
        "`answers` must be as long as `calls`"
    );

    match generator {
        SeededGenerator::WyRand(seed) => replay_wyrand(seed, mode, calls, items, answers),
        SeededGenerator::Pcg64(seed) => replay_pcg64(seed, mode, calls, items, answers),
        SeededGenerator::ChaCha8(seed) => replay_chacha::<8>(seed, mode, calls, items, answers),
        SeededGenerator::ChaCha12(seed) => replay_chacha::<12>(seed, mode, calls, items, answers),
        SeededGenerator::ChaCha20(seed) => replay_chacha::<20>(seed, mode, calls, items, answers),
    }
}

fn replay_wyrand(
    seed: [u8; 8],
    mode: Mode,
    calls: &[Call],
    items: &mut [u64],
    answers: &mut [Answer],
) {
    let mut rng = WyRand::new_seed(0);
    rng.reseed(seed);
    match mode {
        Mode::Plain => replay(&mut rng, calls, items, answers),
        Mode::Buffered => replay(&mut BufferedRng::new(rng), calls, items, answers),
    }
}

fn replay_pcg64(
    seed: [u8; 16],
    mode: Mode,
    calls: &[Call],
    items: &mut [u64],
    answers: &mut [Answer],
) {
    let mut rng = Pcg64::new_seed(0);
    rng.reseed(seed);
    match mode {
        Mode::Plain => replay(&mut rng, calls, items, answers),
        Mode::Buffered => replay(&mut BufferedRng::new(rng), calls, items, answers),
    }
}

fn replay_chacha<const ROUNDS: u8>(
    seed: [u8; 40],
    mode: Mode,
    calls: &[Call],
    items: &mut [u64],
    answers: &mut [Answer],
) {
    let mut rng = ChaCha::<ROUNDS>::new_key([0; 32], [0; 8]);
    rng.reseed(seed);
    match mode {
        Mode::Plain => replay(&mut rng, calls, items, answers),
        Mode::Buffered => replay(&mut BufferedRng::new(rng), calls, items, answers),
    }
}
