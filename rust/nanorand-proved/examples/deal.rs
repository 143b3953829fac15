//! Deals two hands of five cards from a deck. It shuffles only as many cards as it deals.

use nanorand_proved::shuffles::partial_shuffle;
use nanorand_proved::{RangeError, WyRand};

const RANKS: [char; 13] = [
    '2', '3', '4', '5', '6', '7', '8', '9', 'T', 'J', 'Q', 'K', 'A',
];

fn name(card: usize) -> String {
    format!("{}{}", RANKS[card % 13], ['c', 'd', 'h', 's'][card / 13])
}

fn main() -> Result<(), RangeError> {
    let mut deck: Vec<usize> = (0..52).collect();
    partial_shuffle(&mut WyRand::seed_from_u64(5), &mut deck, 10)?;
    let (dealt, rest) = deck.split_at(10);
    for hand in dealt.chunks(5) {
        let names: Vec<String> = hand.iter().map(|card| name(*card)).collect();
        println!("{}", names.join(" "));
    }
    assert!(dealt.iter().all(|card| !rest.contains(card)));
    deck.sort_unstable();
    assert!(deck.into_iter().eq(0..52));
    Ok(())
}
