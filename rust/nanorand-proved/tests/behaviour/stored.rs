//! Stored choices of a shuffle, and the permutations that they make.

use crate::common::{rising, zeros, Constant, Script, Steps};
use nanorand_proved::shuffles::{apply_choices, choices_of, shuffle_and_record};
use nanorand_proved::{BufferedRng, ChaCha8, Pcg64, RangeError, Rng, WyRand};

/// The six valid lists of three choices, and the permutations of 0, 1, 2 that they make.
#[test]
fn three_choices() {
    let rows = [
        ([0, 1, 2], [0, 1, 2]),
        ([0, 2, 2], [0, 2, 1]),
        ([1, 1, 2], [1, 0, 2]),
        ([1, 2, 2], [1, 2, 0]),
        ([2, 1, 2], [2, 1, 0]),
        ([2, 2, 2], [2, 0, 1]),
    ];
    for (choices, order) in rows {
        let mut found = [9; 3];
        assert_eq!(choices_of(&order, &mut found, &mut [9; 3]), Ok(()));
        assert_eq!(found, choices);
        let mut items = [0, 1, 2];
        apply_choices(&choices, &mut items);
        assert_eq!(items, order);
    }
}

/// The last `count` digits of a number in a base, least significant digit first.
fn digits(number: usize, base: usize, count: usize) -> Vec<usize> {
    let mut left = number;
    let mut digits = vec![0; count];
    for digit in &mut digits {
        *digit = left % base;
        left /= base;
    }
    digits
}

/// Whether each number below the length occurs once.
fn holds_each_once(numbers: &[usize]) -> bool {
    let copies = |number| numbers.iter().filter(|other| **other == number).count();
    (0..numbers.len()).all(|number| copies(number) == 1)
}

/// Of all lists of `count` numbers from 0 to 5, `choices_of` returns choices exactly for those that
/// are permutations, and `apply_choices` is its inverse.
#[test]
fn each_undoes_the_other() {
    for (count, permutations) in [(0, 1), (1, 1), (2, 2), (3, 6), (4, 24), (5, 120)] {
        let mut found = 0;
        let mut last = 1;
        for _ in 0..count {
            last *= 6;
        }
        for code in 0..last {
            let order = digits(code, 6, count);
            let mut choices = vec![9; count];
            let made = choices_of(&order, &mut choices, &mut vec![9; count]);
            assert_eq!(made.is_ok(), holds_each_once(&order), "{order:?}");
            if made.is_ok() {
                found += 1;
                let mut items = rising(count);
                apply_choices(&choices, &mut items);
                assert_eq!(items, order);
            }
        }
        assert_eq!(found, permutations);
    }
}

/// All earlier contents of the record are overwritten, even after the failed draw.
#[test]
fn refused_at_the_first_and_the_second_draw() {
    let mut rng = zeros();
    let mut letters = ['a', 'b', 'c'];
    let mut choices = [9; 3];
    let refused = shuffle_and_record(&mut rng, &mut letters, &mut choices);
    assert_eq!(refused, Err(RangeError::Exhausted));
    assert_eq!(choices, [0, 1, 2]);
    assert_eq!(letters, ['a', 'b', 'c']);
    assert_eq!(rng.drawn(), 128);

    let mut script = Script::new(&[255]);
    let mut letters = ['a', 'b', 'c', 'd'];
    let mut choices = [9; 4];
    let refused = shuffle_and_record(&mut script, &mut letters, &mut choices);
    assert_eq!(refused, Err(RangeError::Exhausted));
    assert_eq!(choices, [3, 1, 2, 3]);
    assert_eq!(letters, ['d', 'b', 'c', 'a']);
    assert_eq!(script.drawn(), 129);
}

/// Asserts that the recording shuffle equals `shuffle`, and that applying the recorded choices
/// makes the same permutation.
fn check_record<G: Rng<OUTPUT> + Clone, const OUTPUT: usize>(fresh: &G) {
    for count in [0, 1, 2, 3, 50] {
        let (mut rng, mut other) = (fresh.clone(), fresh.clone());
        let (mut items, mut others) = (rising(count), rising(count));
        let mut choices = vec![9; count];
        let answer = shuffle_and_record(&mut rng, &mut items, &mut choices);
        assert_eq!(answer, other.shuffle(&mut others));
        assert_eq!(items, others);
        let mut again = rising(count);
        apply_choices(&choices, &mut again);
        assert_eq!(again, items);
        assert_eq!(rng.generate::<u64>(), other.generate::<u64>());
    }
}

#[test]
fn as_shuffle_and_dealt_again() {
    check_record(&WyRand::new_seed(42));
    check_record(&Pcg64::new_seed(42));
    check_record(&ChaCha8::new_key([7; 32], [9; 8]));
    check_record(&BufferedRng::new(WyRand::new_seed(42)));
    check_record(&Steps::new());
    check_record(&zeros());
    check_record(&Constant::new(255));
    check_record(&Script::new(&[255, 128, 1, 77, 200]));
}
