//! Throws a die ten times. The same seed gives the same throws on every machine.

use nanorand_proved::{RangeError, Rng, WyRand};

fn main() -> Result<(), RangeError> {
    let mut rng = WyRand::seed_from_u64(2026);
    let mut throws = [0_u8; 10];
    for throw in &mut throws {
        *throw = rng.generate_range(1..=6)?;
    }
    println!("{throws:?}");
    assert_eq!(throws, [2, 6, 2, 5, 1, 4, 4, 4, 6, 4]);
    Ok(())
}
