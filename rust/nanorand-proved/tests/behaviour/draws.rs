//! The bounded draw, compared with one that picks from each word separately, and with the formula.

use crate::common::ByteScript;
use nanorand_proved::values::pick_word;
use nanorand_proved::values::word::draw_below;
use nanorand_proved::Rng;

/// The number that a word selects, computed with a remainder for each word.
fn pick_by_remainder(size: u128, bits: u32, word: u64) -> Option<u64> {
    let words = 1_u128 << bits;
    let product = u128::from(word) * size;
    let number = u64::try_from(product / words).expect("a number below the size");
    (product % words >= words % size).then_some(number)
}

fn draw_word<G: Rng<OUTPUT>, const OUTPUT: usize>(rng: &mut G, bits: u32) -> u64 {
    match bits {
        8 => u64::from(rng.generate::<u8>()),
        16 => u64::from(rng.generate::<u16>()),
        32 => u64::from(rng.generate::<u32>()),
        _ => rng.generate::<u64>(),
    }
}

fn draw_by_picks<G: Rng<OUTPUT>, const OUTPUT: usize>(
    rng: &mut G,
    size: u128,
    bits: u32,
) -> Option<u64> {
    (0..128).find_map(|_| pick_word(size, bits, draw_word(rng, bits)))
}

/// The number that the first accepted word selects, and the number of words drawn. The words are
/// `zeros` times 0, then these two, then 0 again.
fn draw_by_formula(size: u128, bits: u32, zeros: usize, words: [u64; 2]) -> (Option<u64>, usize) {
    for place in 0..128_usize {
        let word = match place.checked_sub(zeros) {
            Some(index) if index < 2 => words[index],
            _ => 0,
        };
        let number = pick_by_remainder(size, bits, word);
        if number.is_some() {
            return (number, place + 1);
        }
    }
    (None, 128)
}

/// The last `bits` bits of a number.
fn last_bits(number: u64, bits: u32) -> u64 {
    number & (u64::MAX >> (64 - bits))
}

/// Asserts that the draw and both references return the same number and take the same words.
fn check_draw(size: u128, bits: u32, zeros: usize, words: [u64; 2]) {
    let words = words.map(|word| last_bits(word, bits));
    let length = usize::try_from(bits / 8).expect("a few bytes");
    let bytes: Vec<u8> = words
        .iter()
        .flat_map(|word| word.to_le_bytes().into_iter().take(length))
        .collect();
    let mut now = ByteScript::after_zeros(zeros * length, &bytes);
    let mut once = now.clone();
    let number = draw_below(&mut now, size, bits);
    let by_picks = draw_by_picks(&mut once, size, bits);
    let (by_formula, drawn) = draw_by_formula(size, bits, zeros, words);
    assert_eq!(
        (number, now.drawn()),
        (by_picks, once.drawn()),
        "{size} {bits} {zeros} {words:?}"
    );
    assert_eq!(
        (number, now.drawn()),
        (by_formula, drawn * length),
        "{size} {bits} {zeros} {words:?}"
    );
}

/// The inverse of an odd number modulo 2^64, by Newton's method. Each step doubles the number of
/// correct bits.
fn inverse_of(odd: u64) -> u64 {
    (0..5).fold(odd, |inverse, _| {
        inverse.wrapping_mul(2_u64.wrapping_sub(odd.wrapping_mul(inverse)))
    })
}

/// The words whose low parts are the least accepted one and the greatest rejected one. They exist
/// for every odd size.
fn boundary_words(size: u128, bits: u32) -> (u64, u64) {
    let low = |number: u128| u64::try_from(number % (1 << 64)).expect("a low half");
    let inverse = inverse_of(low(size));
    let accepted = low((1 << bits) % size).wrapping_mul(inverse);
    (
        last_bits(accepted, bits),
        last_bits(accepted.wrapping_sub(inverse), bits),
    )
}

/// Tests each word as the first and second one, as the last but one and the last of 128, and as the
/// one after these, which is too late.
fn check_words(size: u128, bits: u32, words: &[u64]) {
    for word in words {
        for zeros in [0, 1, 126, 127, 128] {
            check_draw(size, bits, zeros, [*word, 1]);
        }
    }
}

fn check_size(size: u128, bits: u32) {
    if size < 1 || size > 1 << bits {
        return;
    }
    let (accepted, rejected) = boundary_words(size, bits);
    if size % 2 == 1 {
        assert!(pick_word(size, bits, accepted).is_some());
        assert_eq!(pick_word(size, bits, rejected).is_none(), size > 1);
    }
    let (after, beyond) = (accepted.wrapping_add(1), rejected.wrapping_add(1));
    check_words(
        size,
        bits,
        &[1, 2, 3, u64::MAX, accepted, after, rejected, beyond],
    );
}

fn check_near(size: u128, bits: u32) {
    check_size(size - 1, bits);
    check_size(size, bits);
    check_size(size + 1, bits);
}

fn check_sizes(bits: u32) {
    for power in 0..=bits {
        check_near(1 << power, bits);
    }
    check_near(3 << (bits - 2), bits);
}

#[test]
fn all_draw_the_same() {
    for bits in [8, 16, 32, 64] {
        check_sizes(bits);
    }
    check_near(129, 8);
    check_near(200, 8);
}

#[test]
fn all_draw_the_same_of_every_size_and_byte() {
    for size in 1..=256 {
        for byte in 0..=255 {
            let picked = pick_word(size, 8, byte);
            assert_eq!(picked, pick_by_remainder(size, 8, byte), "{size} {byte}");
            check_draw(size, 8, 1, [byte, 1]);
        }
    }
}
