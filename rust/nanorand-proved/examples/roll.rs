//! Rolls a die. The same seed rolls the same number on every machine.

use nanorand_proved::{Rng, WyRand};

fn main() {
    let mut rng = WyRand::seed_from_u64(42);
    let pips: u64 = rng.range(1..=6);
    println!("You rolled {pips}.");
}
