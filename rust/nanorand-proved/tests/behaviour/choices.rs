//! Choices by one drawn number, compared with the number that the word selects.

use crate::common::{zeros, ByteScript, Steps};
use nanorand_proved::choices::{below, between, bits, choose, choose_mut, ratio};
use nanorand_proved::values::pick_word;
use nanorand_proved::{RangeError, Rng};

const WORDS: [u64; 8] = [
    0,
    1,
    2,
    1 << 31,
    (1 << 32) - 1,
    (1 << 63) - 1,
    1 << 63,
    u64::MAX,
];

/// A generator whose first eight bytes are this 64-bit word.
fn word_first(word: u64) -> ByteScript {
    ByteScript::new(&word.to_le_bytes())
}

/// The item of a list that the word selects, or `None` if the word is rejected.
fn named(word: u64, items: &[u32]) -> Option<usize> {
    let size = u128::try_from(items.len()).expect("a few items");
    pick_word(size, 64, word).map(|index| usize::try_from(index).expect("a small index"))
}

#[test]
fn a_word_names_the_number_below() {
    let sizes = [1, 2, 3, 6, 7, 8, 255, 256, 257, 1 << 32, 3 << 62, u64::MAX];
    for size in sizes {
        for word in WORDS {
            let mut rng = word_first(word);
            let number = below(&mut rng, size);
            match pick_word(u128::from(size), 64, word) {
                Some(named) => {
                    assert_eq!(number, Ok(named), "{size} {word}");
                    assert_eq!(rng.drawn(), 8);
                }
                None => assert!(rng.drawn() > 8, "{size} {word}"),
            }
        }
    }
}

#[test]
fn below_of_each_type() {
    let ones = || ByteScript::new(&[255; 8]);
    assert_eq!(below(&mut ones(), 6_u8), Ok(5));
    assert_eq!(below(&mut ones(), 1000_u16), Ok(999));
    assert_eq!(below(&mut ones(), 1000_u32), Ok(999));
    assert_eq!(below(&mut ones(), 1000_u64), Ok(999));
    assert_eq!(below(&mut ones(), 1000_usize), Ok(999));
    assert_eq!(below(&mut ones(), -100_i8), Ok(-101));
    assert_eq!(below(&mut ones(), -100_i16), Ok(-101));
    assert_eq!(below(&mut ones(), -100_i32), Ok(-101));
    assert_eq!(below(&mut ones(), -100_i64), Ok(-101));
    assert_eq!(below(&mut ones(), -100_isize), Ok(-101));
    assert_eq!(below(&mut zeros(), -126_i8), Ok(-128));
}

/// `between` draws the same as `generate_range`. With crossed bounds it returns `Empty`, and draws
/// nothing.
macro_rules! between_both_ends {
    ($($number:ty),+) => { $(
        for low in [<$number>::MIN, 0, 1, 6, <$number>::MAX - 1, <$number>::MAX] {
            for high in [<$number>::MIN, 0, 1, 6, <$number>::MAX - 1, <$number>::MAX] {
                for word in WORDS {
                    let (mut one, mut other) = (word_first(word), word_first(word));
                    let number = between(&mut one, low, high);
                    assert_eq!(number, other.generate_range(low..=high), "{low} {high} {word}");
                    assert_eq!(one.drawn(), other.drawn());
                    assert_eq!(number == Err(RangeError::Empty), low > high);
                    assert_eq!(one.drawn() == 0, low > high);
                }
            }
        }
    )+ };
}

#[test]
fn between_has_both_ends() {
    between_both_ends!(u8, u16, u32, u64, usize, i8, i16, i32, i64, isize);
    assert_eq!(between(&mut zeros(), 1, 6_u8), Err(RangeError::Exhausted));
}

/// Random bits are the top bits of one word, and the number that `below` draws.
macro_rules! bits_of_each_count {
    ($($number:ty),+) => { $(
        for count in 0..=<$number>::BITS {
            for word in WORDS {
                let mut rng = word_first(word);
                let number: $number = bits(&mut rng, count);
                assert_eq!(rng.drawn(), usize::try_from(<$number>::BITS / 8).expect("a few"));
                let size = 1_u128 << count;
                let whole = word & u64::MAX >> (64 - <$number>::BITS);
                let rank = pick_word(size, <$number>::BITS, whole).expect("no word is rejected");
                let least = i128::try_from(<$number>::MIN).expect("at most 64 bits");
                assert_eq!(i128::try_from(number), Ok(least + i128::from(rank)), "{count} {word}");
            }
        }
    )+ };
}

#[test]
fn bits_are_never_refused() {
    bits_of_each_count!(u8, u16, u32, u64, i8, i16, i32, i64);
    assert_eq!(
        bits::<usize, _, 1>(&mut word_first(u64::MAX), 53),
        (1 << 53) - 1
    );
    assert_eq!(bits::<isize, _, 1>(&mut word_first(0), 64), isize::MIN);
}

#[test]
fn more_bits_than_the_type_has() {
    for count in [9, 64, 255, u32::MAX] {
        let refused = std::panic::catch_unwind(|| bits::<u8, _, 8>(&mut zeros(), count));
        assert!(refused.is_err(), "{count}");
    }
}

#[test]
fn a_word_chooses_the_item() {
    let all = [10, 20, 30, 40, 50];
    for items in (1..=5).map(|count| &all[..count]) {
        for word in WORDS {
            if let Some(index) = named(word, items) {
                let mut rng = word_first(word);
                assert_eq!(choose(&mut rng, items), Ok(&items[index]));
                assert_eq!(rng.drawn(), 8);
            }
        }
    }
}

#[test]
fn the_chosen_item_alone_is_written() {
    for word in WORDS {
        let mut items = [10, 20, 30, 40, 50];
        if let Some(index) = named(word, &items) {
            let mut expected = items;
            expected[index] = 99;
            *choose_mut(&mut word_first(word), &mut items).expect("a chosen item") = 99;
            assert_eq!(items, expected);
        }
    }
}

#[test]
fn nothing_to_choose_from() {
    let mut steps = Steps::new();
    let none: [u32; 0] = [];
    assert_eq!(choose(&mut steps, &none), Err(RangeError::Empty));
    let chosen = choose_mut(&mut steps, &mut [0_u32; 0]).map(|item| *item);
    assert_eq!(chosen, Err(RangeError::Empty));
    assert_eq!(ratio(&mut steps, 1, 0), Err(RangeError::Empty));
    assert_eq!(steps.drawn(), 0);

    let mut rng = zeros();
    assert_eq!(choose(&mut rng, &[1, 2, 3]), Err(RangeError::Exhausted));
    assert_eq!(rng.drawn(), 128);
    assert_eq!(ratio(&mut rng, 1, 3), Err(RangeError::Exhausted));
    assert_eq!(rng.drawn(), 256);
    assert_eq!(below(&mut rng, 3_u8), Err(RangeError::Exhausted));
    assert_eq!(rng.drawn(), 384);
    let mut items = [1, 2, 3];
    let chosen = choose_mut(&mut rng, &mut items).map(|item| *item);
    assert_eq!(chosen, Err(RangeError::Exhausted));
    assert_eq!((items, rng.drawn()), ([1, 2, 3], 512));
}

#[test]
fn a_ratio_is_true_below_its_numerator() {
    for denominator in [1, 2, 3, 7, 100, 1 << 63, u64::MAX] {
        for numerator in [0, 1, 2, 3, 50, 99, 100, 1 << 62, 1 << 63, u64::MAX] {
            for word in WORDS {
                if let Some(named) = pick_word(u128::from(denominator), 64, word) {
                    let mut rng = word_first(word);
                    let truth = ratio(&mut rng, numerator, denominator);
                    assert_eq!(truth, Ok(named < numerator));
                    assert_eq!(rng.drawn(), 8);
                }
            }
        }
    }
}
