//! `fill`, `shuffle`, `shuffle_full` and `partial_shuffle`.

use crate::common::{rising, zeros, Constant, Script, Steps, Waste};
use nanorand_proved::choices::{choose, choose_mut};
use nanorand_proved::shuffles::{partial_shuffle, shuffle_full};
use nanorand_proved::values::pick_word;
use nanorand_proved::{BufferedRng, ChaCha8, Pcg64, RangeError, Rng, WyRand};

const LETTERS: [char; 3] = ['a', 'b', 'c'];

const EXHAUSTED: Result<(), RangeError> = Err(RangeError::Exhausted);

/// Each partner comes from all places.
#[test]
fn a_full_shuffle() {
    let mut steps = Steps::new();
    let mut letters = LETTERS;
    assert_eq!(shuffle_full(&mut steps, &mut letters), Ok(()));
    assert_eq!((letters, steps.drawn()), (['c', 'a', 'b'], 3));

    let mut script = Script::new(&[0x80, 1, 255]);
    let mut letters = LETTERS;
    assert_eq!(shuffle_full(&mut script, &mut letters), Ok(()));
    assert_eq!((letters, script.drawn()), (LETTERS, 3));

    let mut script = Script::new(&[255; 4]);
    let mut letters = ['a', 'b', 'c', 'd'];
    assert_eq!(shuffle_full(&mut script, &mut letters), Ok(()));
    assert_eq!((letters, script.drawn()), (['d', 'a', 'b', 'c'], 4));
}

#[test]
fn refused_by_zeros() {
    let mut letters = LETTERS;
    let mut rng = zeros();
    assert_eq!(rng.shuffle(&mut letters), EXHAUSTED);
    assert_eq!(letters, LETTERS);
    assert_eq!(rng.drawn(), 128);

    let mut rng = zeros();
    assert_eq!(shuffle_full(&mut rng, &mut letters), EXHAUSTED);
    assert_eq!(letters, LETTERS);
    assert_eq!(rng.drawn(), 128);
}

/// The swaps before the failed draw stay.
#[test]
fn refused_at_the_second_draw() {
    let mut script = Script::new(&[255]);
    let mut letters = LETTERS;
    assert_eq!(shuffle_full(&mut script, &mut letters), EXHAUSTED);
    assert_eq!(letters, ['c', 'b', 'a']);
    assert_eq!(script.drawn(), 129);

    let mut script = Script::new(&[255]);
    let mut letters = ['a', 'b', 'c', 'd'];
    assert_eq!(script.shuffle(&mut letters), EXHAUSTED);
    assert_eq!(letters, ['d', 'b', 'c', 'a']);
    assert_eq!(script.drawn(), 129);
}

#[test]
fn nothing_to_shuffle() {
    let mut rng = zeros();
    let mut none: [char; 0] = [];
    assert_eq!(rng.shuffle(&mut none), Ok(()));
    assert_eq!(shuffle_full(&mut rng, &mut none), Ok(()));
    for count in [0, 1, usize::MAX] {
        assert_eq!(partial_shuffle(&mut rng, &mut none, count), Ok(()));
    }
    let mut letters = LETTERS;
    assert_eq!(partial_shuffle(&mut rng, &mut letters, 0), Ok(()));
    assert_eq!(letters, LETTERS);
    assert_eq!(rng.drawn(), 0);
}

/// The counts 0, 1, .., n - 1, n and the maximum, with four items.
#[test]
fn each_count() {
    let rows = [
        (0, ['a', 'b', 'c', 'd'], 0),
        (1, ['d', 'b', 'c', 'a'], 1),
        (2, ['d', 'c', 'b', 'a'], 2),
        (3, ['d', 'c', 'a', 'b'], 3),
        (4, ['d', 'c', 'a', 'b'], 4),
        (5, ['d', 'c', 'a', 'b'], 4),
        (usize::MAX, ['d', 'c', 'a', 'b'], 4),
    ];
    for (count, shuffled, drawn) in rows {
        let mut script = Script::new(&[200, 100, 255]);
        let mut letters = ['a', 'b', 'c', 'd'];
        assert_eq!(partial_shuffle(&mut script, &mut letters, count), Ok(()));
        assert_eq!(letters, shuffled, "{count}");
        assert_eq!(script.drawn(), drawn, "{count}");
    }
}

/// Words of ones, each of which draws the last index, and then zeros, which are rejected for 7, 6, 5
/// and 3 indices. Counts up to the failed index succeed.
#[test]
fn refused_at_each_step() {
    let rows = [
        (0, 0, [0, 1, 2, 3, 4, 5, 6]),
        (1, 1, [6, 1, 2, 3, 4, 5, 0]),
        (2, 2, [6, 0, 2, 3, 4, 5, 1]),
        (3, 4, [6, 0, 1, 3, 4, 5, 2]),
    ];
    for (words, steps, items) in rows {
        for count in 0..9 {
            let mut script = Script::new(&[255; 3][..words]);
            let mut numbers = [0, 1, 2, 3, 4, 5, 6];
            let answer = partial_shuffle(&mut script, &mut numbers, count);
            if count > steps {
                assert_eq!(answer, EXHAUSTED, "{words} {count}");
                assert_eq!(numbers, items, "{words} {count}");
                assert_eq!(script.drawn(), steps + 128, "{words} {count}");
            } else {
                assert_eq!(answer, Ok(()), "{words} {count}");
                assert_eq!(script.drawn(), count, "{words} {count}");
            }
        }
    }
}

/// The result of `count` steps if every word is this one, and how many words they take.
#[cfg(target_pointer_width = "64")]
fn by_equal_words(word: u64, items: usize, count: usize) -> (Result<(), RangeError>, usize) {
    let left = |step| u128::try_from(items - step).expect("a number of items");
    match (0..count).find(|step| pick_word(left(*step), 64, word).is_none()) {
        Some(step) => (EXHAUSTED, step + 128),
        None => (Ok(()), count),
    }
}

/// Draws from a slice of `ITEMS` zero-sized items, with words of equal bytes.
#[cfg(target_pointer_width = "64")]
fn draws_from<const ITEMS: usize>() {
    let mut nothing = [(); ITEMS];
    for byte in [0, 1, 127, 128, 255] {
        let word = u64::from_le_bytes([byte; 8]);
        for count in 0..4 {
            let mut rng = Constant::new(byte);
            let answer = partial_shuffle(&mut rng, &mut nothing, count);
            let drawn = usize::try_from(rng.drawn()).expect("a few words");
            let wanted = by_equal_words(word, ITEMS, count);
            assert_eq!((answer, drawn), wanted, "{ITEMS} {byte}");
        }
        let (mut rng, mut same) = (Constant::new(byte), Constant::new(byte));
        let (answer, drawn) = by_equal_words(word, ITEMS, 1);
        assert_eq!(choose(&mut rng, &nothing).copied(), answer, "{ITEMS}");
        let lent = choose_mut(&mut same, &mut nothing).copied();
        assert_eq!(lent, answer, "{ITEMS} {byte}");
        assert_eq!(usize::try_from(rng.drawn()), Ok(drawn), "{ITEMS} {byte}");
        assert_eq!(rng, same, "{ITEMS} {byte}");
    }
}

/// A slice of zero-sized items may have up to `usize::MAX` of them.
#[test]
#[cfg(target_pointer_width = "64")]
fn more_items_than_32_bits_count() {
    draws_from::<0xffff_ffff>();
    draws_from::<0x1_0000_0000>();
    draws_from::<0x1_0000_0001>();
    draws_from::<0x100_0000_0000>();
    draws_from::<{ usize::MAX }>();
}

/// The single steps: each draws a partner from its own index to the last one.
fn by_steps<G: Rng<OUTPUT>, const OUTPUT: usize>(
    rng: &mut G,
    items: &mut [usize],
    count: usize,
) -> Result<(), RangeError> {
    for index in 0..count.min(items.len()) {
        let partner = rng.generate_range(index..items.len())?;
        items.swap(index, partner);
    }
    Ok(())
}

/// `partial_shuffle` does the same as the single steps, and its first items are those of a full
/// shuffle.
fn begins_alike<G: Rng<OUTPUT> + Clone, const OUTPUT: usize>(fresh: &G, length: usize) {
    for count in [0, 1, 2, 3, 4, 49, 50, 51] {
        let (mut rng, mut other) = (fresh.clone(), fresh.clone());
        let (mut items, mut others) = (rising(length), rising(length));
        let answer = partial_shuffle(&mut rng, &mut items, count);
        assert_eq!(answer, by_steps(&mut other, &mut others, count));
        assert_eq!(items, others);
        assert_eq!(rng.generate::<u64>(), other.generate::<u64>());
        if answer.is_ok() {
            let mut whole = rising(length);
            let _ = fresh.clone().shuffle(&mut whole);
            let same = count.min(length);
            assert_eq!(items[..same], whole[..same]);
        }
    }
}

fn lengths_alike<G: Rng<OUTPUT> + Clone, const OUTPUT: usize>(fresh: &G) {
    for length in [0, 1, 2, 3, 50] {
        begins_alike(fresh, length);
    }
}

#[test]
fn the_beginning_of_a_shuffle() {
    lengths_alike(&WyRand::new_seed(42));
    lengths_alike(&Pcg64::new_seed(42));
    lengths_alike(&ChaCha8::new_key([7; 32], [9; 8]));
    lengths_alike(&BufferedRng::new(WyRand::new_seed(42)));
    lengths_alike(&Steps::new());
    lengths_alike(&Waste::new());
    lengths_alike(&zeros());
    lengths_alike(&Constant::new(255));
    lengths_alike(&Script::new(&[255, 128, 1, 77, 200]));
}

/// Items of any type are moved like their indices, even items that own memory or are zero-sized.
#[test]
fn shuffles_move_any_items() {
    for count in 0..100 {
        let mut texts: Vec<String> = (0..count).map(|n: usize| n.to_string()).collect();
        let mut wide: Vec<[usize; 5]> = (0..count).map(|n| [n; 5]).collect();
        let mut indices = rising(count);
        let mut nothing = vec![(); count];
        let fresh = WyRand::new_seed(5);
        let (mut rng, mut same) = (fresh.clone(), fresh.clone());
        assert_eq!(rng.shuffle(&mut texts), Ok(()));
        assert_eq!(same.shuffle(&mut indices), Ok(()));
        assert_eq!(rng, same);
        assert_eq!(fresh.clone().shuffle(&mut wide), Ok(()));
        assert_eq!(fresh.clone().shuffle(&mut nothing), Ok(()));
        let moved: Vec<String> = indices.iter().map(usize::to_string).collect();
        assert_eq!(texts, moved);
        assert!(indices.iter().map(|n| [*n; 5]).eq(wide));
        indices.sort_unstable();
        assert_eq!(indices, rising(count));
    }
}
