//! Functions on states of ChaCha: 16 words of 32 bits, of which words 4 to 11 are the key, words 12
//! and 13 the counter, and words 14 and 15 the nonce.

use nanorand_proved::crypto::chacha as proved;

/// Returns the block of a state.
///
/// # Panics
///
/// Panics if the number of rounds is odd.
#[inline]
#[must_use]
pub fn chacha_block<const ROUNDS: u8>(input: [u32; 16]) -> [u32; 16] {
    match ROUNDS {
        8 => proved::chacha_block::<8>(input),
        12 => proved::chacha_block::<12>(input),
        20 => proved::chacha_block::<20>(input),
        _ => block_of_rounds(ROUNDS, input),
    }
}

// In `nanorand_proved` an odd number of rounds does not compile. Here `ChaCha<7>` compiles, so the
// rounds are computed two at a time, by a number that is checked at run time.
fn block_of_rounds(rounds: u8, input: [u32; 16]) -> [u32; 16] {
    assert!(
        rounds % 2 == 0,
        "ChaCha has an even number of rounds, and not {rounds}"
    );
    let mut block = (0..rounds / 2).fold(input, |state, _| proved::chacha_rounds::<2>(state));
    for (word, added) in block.iter_mut().zip(input) {
        *word = word.wrapping_add(added);
    }
    block
}

/// Returns the state of a key and a nonce, with the counter 0. Each word is four bytes, in
/// little-endian order.
#[inline]
#[must_use]
pub const fn chacha_init(key: [u8; 32], nonce: [u8; 8]) -> [u32; 16] {
    proved::chacha_init(key, nonce)
}

/// Adds 1 to the counter and returns true. Word 12 is the low half of the counter, and word 13 the
/// high half. At the greatest counter, 2^64 - 1, it returns false and changes nothing.
#[inline]
pub fn chacha_increment_counter(state: &mut [u32; 16]) -> bool {
    proved::chacha_increment_counter(state)
}

#[cfg(test)]
mod tests {
    use super::*;

    /// Computing the rounds two at a time gives the same blocks as the proved function.
    #[test]
    fn rounds() {
        macro_rules! check {
            ($($rounds:literal)+) => { $(
                let input = chacha_init([3; 32], [4; 8]);
                let proved = proved::chacha_block::<$rounds>(input);
                assert_eq!(chacha_block::<$rounds>(input), proved, "{}", $rounds);
            )+ };
        }
        check!(0 2 4 6 8 10 12 14 16 18 20 22 62 64 66 126 128 130 190 252 254);
    }
}
