//! Which generators are equal, and the derived traits of the small types.

use nanorand_proved::buffer::{RestTooLong, TextRefused};
use nanorand_proved::choices::weighted::WeightError;
use nanorand_proved::entropy::EntropyError;
use nanorand_proved::rand::ChaChaGroups;
use nanorand_proved::replay::{Answer, Kind};
use nanorand_proved::shuffles::NotArrangement;
use nanorand_proved::values::RangeError;
use nanorand_proved::{BufferedRng, ChaCha8, Pcg64, Rng, SeedableRng, WyRand};
use std::collections::hash_map::DefaultHasher;
use std::fmt::Debug;
use std::hash::{Hash, Hasher};

const KEY: [u8; 32] = [7; 32];

const NONCE: [u8; 8] = [41, 42, 43, 44, 45, 46, 47, 255];

/// Asserts that each value equals itself and a clone, and no other value of the list.
fn check_equality<T: Eq + Clone + Debug>(values: &[T]) {
    for (index, value) in values.iter().enumerate() {
        assert_eq!(value.clone(), *value);
        for (other_index, other) in values.iter().enumerate() {
            let same = index == other_index;
            assert_eq!(value == other, same, "{index} {other_index}");
            assert_eq!(value != other, !same, "{index} {other_index}");
        }
    }
}

/// The same for values that have hashes. Equal values have equal hashes, and these different values
/// have different ones.
fn check_hashes<T: Eq + Clone + Debug + Hash>(values: &[T]) {
    check_equality(values);
    for value in values {
        let equal: Vec<&T> = values
            .iter()
            .filter(|other| hash_of(*other) == hash_of(value))
            .collect();
        assert_eq!(equal, [value]);
        assert_eq!(hash_of(&value.clone()), hash_of(value));
    }
}

fn hash_of<T: Hash>(value: &T) -> u64 {
    let mut hasher = DefaultHasher::new();
    value.hash(&mut hasher);
    hasher.finish()
}

#[test]
fn seeds_of_wyrand() {
    check_hashes(&[0, 1, 1 << 32, 1 << 63, u64::MAX].map(WyRand::new_seed));
}

/// A hash depends on what determines the following blocks, even after draws.
#[test]
fn hashes_of_states() {
    let mut source = WyRand::new_seed(1);
    for draws in 0..100_u8 {
        let mut wyrand = WyRand::new_seed(source.generate());
        let mut pcg64 = Pcg64::new_seed(source.generate());
        let mut chacha = ChaCha8::at(source.generate(), source.generate(), source.generate());
        for _ in 0..draws % 3 {
            let _ = (wyrand.rand(), pcg64.rand(), chacha.rand());
        }
        assert_eq!(hash_of(&wyrand), hash_of(&wyrand.seed()));
        assert_eq!(hash_of(&pcg64), hash_of(&pcg64.seed()));
        let state = (chacha.key(), chacha.nonce(), chacha.counter());
        assert_eq!(hash_of(&chacha), hash_of(&state));
        let groups = ChaChaGroups::<8>::at(state.0, state.1, state.2);
        assert_eq!(hash_of(&groups), hash_of(&state));
        let buffer = buffer(wyrand.seed(), &state.1[..7]);
        assert_eq!(hash_of(&buffer), hash_of(&(buffer.rest(), wyrand)));
        let rest = vec![draws; 5 * usize::from(draws)];
        let stream = BufferedRng::with_rest(groups, &rest).expect("less than a block");
        assert_eq!(hash_of(&stream), hash_of(&(&rest[..], stream.inner())));
    }
}

/// Three of them differ from the first in the seed, one only in `inc`. The last two differ from
/// each other only in `state`.
#[test]
fn numbers_of_pcg64() {
    let mut round = Pcg64::new_seed(0);
    round.jump(1 << 126);
    let (mut low, mut high) = (Pcg64::new_seed(0), Pcg64::new_seed(1 << 127));
    let _ = low.rand();
    let _ = high.rand();
    low.reseed([0; 16]);
    high.reseed([0; 16]);
    check_equality(&[
        Pcg64::new_seed(0),
        Pcg64::new_seed(1),
        Pcg64::new_seed(1 << 64),
        Pcg64::new_seed(1 << 127),
        round,
        low,
        high,
    ]);
    check_hashes(&[0, 1, 1 << 64, 1 << 127].map(Pcg64::new_seed));
}

#[test]
fn parts_of_chacha() {
    let mut key = KEY;
    key[0] = 9;
    let mut nonce = NONCE;
    nonce[7] = 9;
    let states = [
        ChaCha8::at(KEY, NONCE, 0),
        ChaCha8::at(key, NONCE, 0),
        ChaCha8::at([1; 32], NONCE, 0),
        ChaCha8::at(KEY, nonce, 0),
        ChaCha8::at(KEY, [1; 8], 0),
        ChaCha8::at(KEY, NONCE, 1),
        ChaCha8::at(KEY, NONCE, 1 << 32),
        ChaCha8::at(KEY, NONCE, u64::MAX),
    ];
    check_hashes(&states);
    check_hashes(&states.map(|one| ChaChaGroups::<8>::at(one.key(), one.nonce(), one.counter())));
}

/// A buffer around `WyRand` with these buffered bytes.
fn buffer(seed: u64, rest: &[u8]) -> BufferedRng<WyRand, 8> {
    BufferedRng::with_rest(WyRand::new_seed(seed), rest).expect("less than a block")
}

#[test]
fn parts_of_buffers() {
    check_hashes(&[
        buffer(7, &[]),
        buffer(8, &[]),
        buffer(7, &[1]),
        buffer(7, &[2]),
        buffer(7, &[1, 2]),
        buffer(7, &[0, 1]),
        buffer(8, &[1, 2]),
    ]);
}

/// Bytes that were delivered do not count: two buffers are equal after different ones.
#[test]
fn delivered_bytes_do_not_count() {
    let mut first = buffer(7, &[1, 2, 3, 4]);
    let mut second = buffer(7, &[9, 9, 3, 4]);
    assert_ne!(first, second);
    assert_eq!(first.generate::<u16>(), 0x0201);
    assert_eq!(second.generate::<u16>(), 0x0909);
    assert_eq!(first, second);
    assert_eq!(first, buffer(7, &[3, 4]));
    assert_eq!(hash_of(&first), hash_of(&second));
    assert_eq!(first.generate::<u64>(), second.generate::<u64>());
    assert_eq!(first, second);
}

/// Asserts that copies equal their value, that no two values are equal, and the `Debug` texts.
fn check_copies<T: Copy + Eq + Debug>(rows: &[(T, &str)]) {
    let values: Vec<T> = rows.iter().map(|(value, _)| *value).collect();
    check_equality(&values);
    for (value, text) in rows {
        assert_eq!(format!("{value:?}"), *text);
    }
}

#[test]
fn kinds() {
    check_copies(&[
        (Kind::I8, "I8"),
        (Kind::I16, "I16"),
        (Kind::I32, "I32"),
        (Kind::I64, "I64"),
        (Kind::I128, "I128"),
        (Kind::Isize, "Isize"),
        (Kind::U8, "U8"),
        (Kind::U16, "U16"),
        (Kind::U32, "U32"),
        (Kind::U64, "U64"),
        (Kind::U128, "U128"),
        (Kind::Usize, "Usize"),
        (Kind::Bool, "Bool"),
    ]);
}

#[test]
fn answers() {
    let most = "Unsigned(340282366920938463463374607431768211455)";
    let least = "Signed(-170141183460469231731687303715884105728)";
    check_copies(&[
        (Answer::Unsigned(0), "Unsigned(0)"),
        (Answer::Unsigned(1), "Unsigned(1)"),
        (Answer::Unsigned(u128::MAX), most),
        (Answer::Signed(0), "Signed(0)"),
        (Answer::Signed(-1), "Signed(-1)"),
        (Answer::Signed(i128::MIN), least),
        (Answer::Truth(false), "Truth(false)"),
        (Answer::Truth(true), "Truth(true)"),
        (Answer::Empty, "Empty"),
        (Answer::Exhausted, "Exhausted"),
        (Answer::Shuffled, "Shuffled"),
    ]);
}

#[test]
fn refusals() {
    check_copies(&[
        (RangeError::Empty, "Empty"),
        (RangeError::Exhausted, "Exhausted"),
    ]);
    check_copies(&[
        (WeightError::NoWeight, "NoWeight"),
        (WeightError::TooHeavy, "TooHeavy"),
        (WeightError::Exhausted, "Exhausted"),
    ]);
    check_copies(&[
        (EntropyError::Short, "Short"),
        (EntropyError::Fault, "Fault"),
        (EntropyError::Unavailable, "Unavailable"),
    ]);
    check_copies(&[(TextRefused, "TextRefused")]);
    check_copies(&[(RestTooLong, "RestTooLong")]);
    check_copies(&[(NotArrangement, "NotArrangement")]);
}
