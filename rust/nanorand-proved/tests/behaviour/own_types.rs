//! A user's own value type.

use crate::common::{zeros, Constant, Steps};
use nanorand_proved::{RandomGen, RandomRange, RangeError, Rng};
use std::ops::Bound;

/// A number from 1 to 6.
#[derive(Clone, Copy, Debug, PartialEq, Eq)]
struct Die(u8);

/// A roll: a byte in the range 1..=6, or 1 if 128 words in a row were rejected.
impl<G: Rng<OUTPUT>, const OUTPUT: usize> RandomGen<G, OUTPUT> for Die {
    fn random(rng: &mut G) -> Self {
        Die(rng.generate_range(1..=6).unwrap_or(1))
    }
}

/// A byte in the range with the dice's numbers as bounds. An unbounded end is 1 or 6.
impl<G: Rng<OUTPUT>, const OUTPUT: usize> RandomRange<G, OUTPUT> for Die {
    fn random_range(rng: &mut G, low: Bound<Die>, high: Bound<Die>) -> Result<Self, RangeError> {
        let range = (pips_of(low, 1), pips_of(high, 6));
        rng.generate_range(range).map(Die)
    }
}

fn pips_of(bound: Bound<Die>, last: u8) -> Bound<u8> {
    match bound {
        Bound::Included(die) => Bound::Included(die.0),
        Bound::Excluded(die) => Bound::Excluded(die.0),
        Bound::Unbounded => Bound::Included(last),
    }
}

#[test]
fn throws_of_a_die() {
    let mut rng = zeros();
    assert_eq!(rng.generate::<Die>(), Die(1));
    assert_eq!(rng.drawn(), 128);

    let mut steps = Steps::new();
    assert_eq!(steps.generate::<Die>(), Die(1));
    assert_eq!(steps.drawn(), 2);

    let mut steps = Steps::new();
    assert_eq!(steps.generate_range(Die(2)..), Ok(Die(2)));
    assert_eq!(steps.drawn(), 2);

    let beyond = (Bound::Excluded(Die(6)), Bound::Unbounded);
    assert_eq!(steps.generate_range(beyond), Err(RangeError::Empty));
}

/// The byte 1 selects the least number of each range, and the byte 255 the greatest.
#[test]
fn ranges_of_dice() {
    for low in 1..7 {
        for high in 1..7 {
            let drawn = |byte| Constant::new(byte).generate_range(Die(low)..=Die(high));
            let expected = |pips| {
                if high < low {
                    Err(RangeError::Empty)
                } else {
                    Ok(Die(pips))
                }
            };
            assert_eq!(drawn(1), expected(low), "{low} {high}");
            assert_eq!(drawn(255), expected(high), "{low} {high}");
        }
    }
}

#[test]
fn fills_of_dice() {
    let mut dice = [Die(9); 4];
    Steps::new().fill(&mut dice);
    // The words 0 and 128 are rejected.
    assert_eq!(dice, [Die(1); 4]);
}

/// A generator with its own `shuffle`, which draws no word.
struct Reverses(Steps);

impl Rng<8> for Reverses {
    fn rand(&mut self) -> [u8; 8] {
        self.0.rand()
    }

    fn shuffle<T>(&mut self, target: &mut [T]) -> Result<(), RangeError> {
        target.reverse();
        Ok(())
    }
}

/// A borrowed generator uses its own `shuffle`.
#[test]
fn a_shuffle_of_its_own() {
    fn shuffled<R: Rng<8>>(mut rng: R) -> [u8; 4] {
        let mut numbers = [1, 2, 3, 4];
        rng.shuffle(&mut numbers).expect("no word is drawn");
        numbers
    }
    let mut rng = Reverses(Steps::new());
    assert_eq!(shuffled(&mut rng), [4, 3, 2, 1]);
    assert_eq!(shuffled(&mut &mut rng), [4, 3, 2, 1]);
    assert_eq!(rng.0.drawn(), 0);
    assert_eq!(shuffled(rng), [4, 3, 2, 1]);
}
