//! Samples of an iterator's items in one pass (reservoir sampling), compared with the rule.

use crate::common::{rising, Script, Steps};
use nanorand_proved::samples::reservoir;
use nanorand_proved::{ChaCha8, Pcg64, RangeError, Rng, WyRand};

/// The rule: the first items fill the slots. Each later item draws a number from 0 to its own, and
/// takes the slot with that number, if there is one.
fn by_the_rule<G: Rng<N>, const N: usize>(rng: &mut G, count: usize, slots: &mut [usize]) -> usize {
    for item in 0..count {
        let slot = if item < slots.len() {
            item
        } else {
            rng.generate_range(0..=item).expect("a number")
        };
        if let Some(place) = slots.get_mut(slot) {
            *place = item;
        }
    }
    count.min(slots.len())
}

fn check<G: Rng<N> + Clone + PartialEq + core::fmt::Debug, const N: usize>(start: &G) {
    for slots in 0..9 {
        for count in (0..30).chain([100, 1000]) {
            let (mut rng, mut same) = (start.clone(), start.clone());
            let (mut chosen, mut wanted) = (vec![usize::MAX; slots], vec![usize::MAX; slots]);
            let filled = by_the_rule(&mut same, count, &mut wanted);
            assert_eq!(reservoir(&mut rng, 0..count, &mut chosen), Ok(filled));
            assert_eq!((&chosen, &rng), (&wanted, &same), "{slots} of {count}");
        }
    }
}

#[test]
fn reservoirs_of_every_size() {
    check(&WyRand::new_seed(5));
    check(&Pcg64::new_seed(5));
    check(&ChaCha8::new_key([5; 32], [0; 8]));
}

/// Items that cannot be copied, from an iterator that does not know its length.
#[test]
fn items_of_any_type() {
    let mut chosen = [(); 3].map(|()| String::from("none"));
    let mut numbers = [0; 3];
    let text = "a b c d e f g h i j";
    let letters = text.split(' ').map(String::from);
    let filled = reservoir(&mut WyRand::new_seed(7), letters, &mut chosen);
    let same = reservoir(&mut WyRand::new_seed(7), 0..10, &mut numbers);
    assert_eq!((filled, same), (Ok(3), Ok(3)));
    let letters: Vec<&str> = text.split(' ').collect();
    assert_eq!(chosen, numbers.map(|number: usize| letters[number]));
}

/// The item whose draw returns an error is dropped, and those after it are not taken.
#[test]
fn a_reservoir_refused_at_each_draw() {
    // There are two slots. A word of ones draws an item's own number. A word of zeros draws the
    // number 0, or is rejected if the size of the item's range is not a power of two.
    let rows = [
        (0, [0, 1], 3),
        (1, [3, 1], 5),
        (2, [0, 1], 5),
        (3, [0, 1], 6),
        (4, [0, 1], 7),
    ];
    for (draws, left, next) in rows {
        let (mut script, mut items) = (Script::new(&[255; 9][..draws]), 0..20);
        let mut chosen = [99; 2];
        let answer = reservoir(&mut script, &mut items, &mut chosen);
        assert_eq!(answer, Err(RangeError::Exhausted), "{draws}");
        assert_eq!((chosen, items), (left, next..20), "{draws}");
    }
}

/// No word is drawn for the items that fill the slots. If there are no slots, one word is drawn for
/// each item.
#[test]
fn words_of_a_reservoir() {
    for slots in 0..5_usize {
        for count in 0..9_usize {
            let mut rng = Steps::new();
            let mut chosen = rising(slots);
            reservoir(&mut rng, 0..count, &mut chosen).expect("no refusal");
            assert_eq!(rng.drawn(), count.saturating_sub(slots) as u64);
        }
    }
}
