//! Draws six different numbers from 1 to 49. They are a set, so they are sorted: the order of a sample is not random.

use nanorand_proved::samples::sample;
use nanorand_proved::{Pcg64, RangeError};

fn main() -> Result<(), RangeError> {
    let mut rng = Pcg64::seed_from_u64(2026);
    let mut numbers = [0; 6];
    sample(&mut rng, 49, &mut numbers)?;
    numbers.sort_unstable();
    let numbers = numbers.map(|number| number + 1);
    println!("{numbers:?}");
    assert!(numbers.windows(2).all(|pair| pair[0] < pair[1]));
    assert!(numbers.iter().all(|number| (1..=49).contains(number)));
    Ok(())
}
