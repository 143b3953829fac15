//! Samples lines that can be read only once and whose number is unknown. Each line is in the sample with the same
//! probability.

use nanorand_proved::samples::reservoir;
use nanorand_proved::{RangeError, WyRand};

fn main() -> Result<(), RangeError> {
    let mut rng = WyRand::seed_from_u64(7);
    let mut chosen = [(); 5].map(|()| String::new());
    let lines = (0..20).map(|number| format!("line {number}"));
    let filled = reservoir(&mut rng, lines, &mut chosen)?;
    println!("{chosen:?}");
    assert_eq!(filled, 5);
    assert_eq!(chosen, ["line 0", "line 1", "line 19", "line 5", "line 15"]);
    let filled = reservoir(&mut rng, ["only one".to_string()].into_iter(), &mut chosen)?;
    assert_eq!(chosen[..filled], ["only one"]);
    Ok(())
}
