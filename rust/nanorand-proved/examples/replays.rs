//! Repeats a run from a clone that was made before it, and from its seed.

use nanorand_proved::{RangeError, Rng, WyRand};

/// A game of ten rounds: each player throws two dice, and the higher sum wins the round.
fn play(rng: &mut WyRand) -> Result<[u32; 2], RangeError> {
    let mut won = [0; 2];
    for _ in 0..10 {
        let mut sums = [0_u8; 2];
        for sum in &mut sums {
            *sum = rng.generate_range(1..=6)? + rng.generate_range(1..=6)?;
        }
        won[0] += u32::from(sums[0] > sums[1]);
        won[1] += u32::from(sums[1] > sums[0]);
    }
    Ok(won)
}

fn main() -> Result<(), RangeError> {
    let mut rng = WyRand::seed_from_u64(8);
    let mut before = rng.clone();
    let won = play(&mut rng)?;
    println!("{} to {}", won[0], won[1]);
    assert_eq!(play(&mut before)?, won);
    assert_eq!(play(&mut WyRand::seed_from_u64(8))?, won);
    assert_eq!(before, rng);
    Ok(())
}
