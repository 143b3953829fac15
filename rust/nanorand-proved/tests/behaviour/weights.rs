//! Choices by weight.

use crate::common::{zeros, ByteScript, Script, Steps, Waste};
use nanorand_proved::choices::choose_weighted;
use nanorand_proved::choices::weighted::WeightError;
use nanorand_proved::{BufferedRng, ChaCha8, Pcg64, Rng, WyRand};

const HALF: u64 = 1 << 63;

/// Words of one byte, repeated eight times, at both ends of the shares, with a weight of 0 at each
/// index.
#[test]
fn ends_of_shares() {
    let rows = [
        ([0, 1, 2, 1], [1, 1, 2, 2, 3, 3]),
        ([1, 0, 2, 1], [0, 0, 2, 2, 3, 3]),
        ([1, 2, 0, 1], [0, 0, 1, 1, 3, 3]),
        ([1, 2, 1, 0], [0, 0, 1, 1, 2, 2]),
        ([0, 0, 4, 0], [2, 2, 2, 2, 2, 2]),
        ([0, 1, 0, 0], [1, 1, 1, 1, 1, 1]),
        ([64, 0, 128, 64], [0, 0, 2, 2, 3, 3]),
    ];
    for (weights, items) in rows {
        let mut script = Script::new(&[0, 63, 64, 191, 192, 255]);
        for item in items {
            assert_eq!(choose_weighted(&mut script, &weights), Ok(item));
        }
        assert_eq!(script.drawn(), 6);
    }
}

/// The generator returns two words, the first one in the low half, and then zeros.
#[test]
fn great_sums() {
    let top = u128::from(u64::MAX) << 64;
    let rows: [([u64; 3], u128, usize, usize); 13] = [
        ([u64::MAX - 1, 0, 1], 1 << 64, 0, 16),
        ([u64::MAX - 1, 0, 1], 0xffff_ffff_ffff_fffe, 0, 8),
        ([u64::MAX - 1, 0, 1], 0xffff_ffff_ffff_ffff, 2, 8),
        ([1, 0, u64::MAX - 1], 1, 0, 8),
        ([1, 0, u64::MAX - 1], 2, 2, 8),
        ([0, u64::MAX, 0], top, 1, 16),
        ([HALF, 0, 1], (top - (1 << 64)) + 2, 0, 16),
        ([HALF, 0, 1], 0xffff_ffff_ffff_ffff, 2, 8),
        ([1, 0, HALF], 1, 0, 8),
        ([1, 0, HALF], 3, 2, 8),
        ([HALF, 0, HALF - 1], 1, 0, 8),
        ([HALF, 0, HALF - 1], 0x8000_0000_0000_0000, 0, 8),
        ([HALF, 0, HALF - 1], 0x8000_0000_0000_0001, 2, 8),
    ];
    for (weights, words, item, drawn) in rows {
        let mut script = ByteScript::new(&words.to_le_bytes());
        assert_eq!(choose_weighted(&mut script, &weights), Ok(item));
        assert_eq!(script.drawn(), drawn);
    }
}

#[test]
fn refused_sums_draw_nothing() {
    let rows: [(&[u64], WeightError); 8] = [
        (&[], WeightError::NoWeight),
        (&[0], WeightError::NoWeight),
        (&[0, 0, 0], WeightError::NoWeight),
        (&[u64::MAX, 1], WeightError::TooHeavy),
        (&[1, u64::MAX], WeightError::TooHeavy),
        (&[HALF, HALF], WeightError::TooHeavy),
        (&[HALF, HALF - 1, 1, 0], WeightError::TooHeavy),
        (&[HALF, HALF, 5], WeightError::TooHeavy),
    ];
    let mut rng = zeros();
    for (weights, refusal) in rows {
        assert_eq!(choose_weighted(&mut rng, weights), Err(refusal));
    }
    assert_eq!(rng.drawn(), 0);
}

/// Sums that are too large by any amount, even if the low 64 bits of the sum are at least each
/// weight.
#[test]
fn sums_of_great_weights() {
    let great = [0, 1, HALF - 1, HALF, HALF + 1, u64::MAX - 1, u64::MAX];
    for number in 0..great.len().pow(5) {
        let digits = (0..5_u32).map(|place| number / great.len().pow(place) % great.len());
        let weights: Vec<u64> = digits.map(|digit| great[digit]).collect();
        let sum: u128 = weights.iter().map(|weight| u128::from(*weight)).sum();
        let mut rng = zeros();
        let refusal = choose_weighted(&mut rng, &weights).err();
        let due = match sum {
            0 => Some(WeightError::NoWeight),
            _ if sum >= 1 << 64 => Some(WeightError::TooHeavy),
            // Zeros draw the least number if the sum divides the number of words, and are rejected
            // otherwise.
            _ => (!sum.is_power_of_two()).then_some(WeightError::Exhausted),
        };
        assert_eq!(refusal, due, "{weights:?}");
        let drawn = match due {
            None => 1,
            Some(WeightError::Exhausted) => 128,
            Some(_) => 0,
        };
        assert_eq!(rng.drawn(), drawn, "{weights:?}");
    }
}

#[test]
fn the_last_of_128_words_may_decide() {
    let weights = [0, 1, 2];
    let refused = Err(WeightError::Exhausted);
    let mut rng = zeros();
    assert_eq!(choose_weighted(&mut rng, &weights), refused);
    assert_eq!(rng.drawn(), 128);

    let mut bytes = [0; 129];
    bytes[127] = 1;
    let mut early = Script::new(&bytes);
    assert_eq!(choose_weighted(&mut early, &weights), Ok(1));
    assert_eq!(early.drawn(), 128);

    let mut bytes = [0; 129];
    bytes[128] = 1;
    let mut late = Script::new(&bytes);
    assert_eq!(choose_weighted(&mut late, &weights), refused);
    assert_eq!(late.drawn(), 128);
    assert_eq!(choose_weighted(&mut late, &weights), Ok(1));
    assert_eq!(late.drawn(), 129);
}

/// The item of each number below 16, for the weights 5, 0, 1 and 10.
const ITEMS: [usize; 16] = [0, 0, 0, 0, 0, 2, 3, 3, 3, 3, 3, 3, 3, 3, 3, 3];

/// A choice draws a number below the sum as a range does, and returns the item of this number.
fn chosen_by_number<G: Rng<OUTPUT> + Clone, const OUTPUT: usize>(mut rng: G) {
    let mut other = rng.clone();
    for _ in 0..20 {
        let number = other.generate_range(..16_usize).expect("a number");
        let item = choose_weighted(&mut rng, &[5, 0, 1, 10]);
        assert_eq!(item, Ok(ITEMS[number]));
    }
    assert_eq!(rng.generate::<u64>(), other.generate::<u64>());
}

/// The running sums of the weights find the same index, from the same words. The README says so.
fn chosen_by_sums<G: Rng<OUTPUT> + Clone, const OUTPUT: usize>(mut rng: G) {
    let mut other = rng.clone();
    let rows: [&[u64]; 7] = [
        &[1],
        &[5, 0, 1, 10],
        &[0, 0, 3, 0, 0, 7, 0],
        &[0, 1, 0, u64::MAX - 1, 0],
        &[HALF, 0, 1],
        &[0, HALF - 1, 0, 0, HALF],
        &[u64::MAX],
    ];
    for weights in rows {
        let mut total = 0;
        let running = weights.iter().map(|weight| {
            total += weight;
            total
        });
        let sums: Vec<u64> = running.collect();
        for _ in 0..50 {
            let number = other.range::<u64>(..total);
            let index = sums.partition_point(|sum| *sum <= number);
            assert_eq!(choose_weighted(&mut rng, weights), Ok(index), "{weights:?}");
        }
        assert_eq!(
            rng.generate::<u64>(),
            other.generate::<u64>(),
            "{weights:?}"
        );
    }
}

#[test]
fn by_running_sums() {
    chosen_by_sums(WyRand::new_seed(42));
    chosen_by_sums(Pcg64::new_seed(42));
    chosen_by_sums(ChaCha8::new_key([7; 32], [9; 8]));
    chosen_by_sums(BufferedRng::new(WyRand::new_seed(42)));
}

#[test]
fn by_each_generator() {
    chosen_by_number(WyRand::new_seed(42));
    chosen_by_number(Pcg64::new_seed(42));
    chosen_by_number(ChaCha8::new_key([7; 32], [9; 8]));
    chosen_by_number(BufferedRng::new(WyRand::new_seed(42)));
    chosen_by_number(Steps::new());
    chosen_by_number(Waste::new());
}
