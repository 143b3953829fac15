//! Types of your own: one that `generate` and `fill` can draw, and one that also has ranges.

use nanorand_proved::{ChaCha12Stream, RandomGen, RandomRange, RangeError, Rng, WyRand};
use std::ops::Bound::{self, Excluded, Included, Unbounded};

#[derive(Clone, Copy, Debug, Default, PartialEq)]
struct Color {
    red: u8,
    green: u8,
    blue: u8,
}

impl<G: Rng<OUTPUT>, const OUTPUT: usize> RandomGen<G, OUTPUT> for Color {
    fn random(rng: &mut G) -> Self {
        let [red, green, blue]: [u8; 3] = rng.generate();
        Color { red, green, blue }
    }
}

/// A day of the week, from 0 to 6.
#[derive(Clone, Copy, Debug, PartialEq)]
struct Day(u8);

impl<G: Rng<OUTPUT>, const OUTPUT: usize> RandomGen<G, OUTPUT> for Day {
    fn random(rng: &mut G) -> Self {
        Day(rng.generate_range(..7).unwrap_or(0))
    }
}

impl<G: Rng<OUTPUT>, const OUTPUT: usize> RandomRange<G, OUTPUT> for Day {
    fn random_range(rng: &mut G, low: Bound<Day>, high: Bound<Day>) -> Result<Day, RangeError> {
        let number = |bound, open| match bound {
            Included(Day(number)) => Included(number),
            Excluded(Day(number)) => Excluded(number),
            Unbounded => open,
        };
        let range = (number(low, Included(0)), number(high, Excluded(7)));
        rng.generate_range(range).map(Day)
    }
}

fn main() -> Result<(), RangeError> {
    let mut rng = WyRand::seed_from_u64(42);
    let color: Color = rng.generate();
    let mut palette = [Color::default(); 16];
    ChaCha12Stream::new_key([1; 32], [2; 8]).fill(&mut palette);
    let workday = rng.generate_range(Day(0)..=Day(4))?;
    println!("{color:?}, {palette:?}, {workday:?}");
    assert!(workday.0 < 5 && rng.generate::<Day>().0 < 7);
    assert_eq!(rng.generate_range(Day(3)..Day(3)), Err(RangeError::Empty));
    Ok(())
}
