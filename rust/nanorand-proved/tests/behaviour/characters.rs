//! Characters and their ranges. Literal characters are from another implementation of the rule.

use crate::common::{zeros, ByteScript, Constant};
use nanorand_proved::RangeError::{self, Empty, Exhausted};
use nanorand_proved::{Rng, WyRand};
use std::ops::Bound::{Excluded, Included, Unbounded};

#[test]
fn characters() {
    let mut rng = WyRand::new_seed(42);
    let drawn = [(); 6].map(|()| u32::from(rng.generate::<char>()));
    assert_eq!(
        drawn,
        [0xe_b957, 0x4_16dc, 0x2_eb6a, 0x3_595f, 0x1_0396, 0x2_acf1]
    );
    let mut rng = WyRand::new_seed(7);
    let letters: Result<String, RangeError> =
        (0..12).map(|_| rng.generate_range('a'..='z')).collect();
    assert_eq!(letters.as_deref(), Ok("wzliyreevsgr"));
    assert_eq!(Constant::new(255).generate::<char>(), char::MAX);
    let mut rng = zeros(); // the word 0 is rejected
    assert_eq!((rng.generate::<char>(), rng.drawn()), ('\0', 128));
}

/// The first words that select the characters next to the surrogates.
#[test]
fn words_beside_the_surrogates() {
    let before_surrogates = (0xd800_u64 << 32) / 0x10_f800;
    for (word, character) in [
        (before_surrogates, '\u{d7ff}'),
        (before_surrogates + 2, '\u{e000}'),
    ] {
        let bytes = u32::try_from(word).expect("32 bits").to_le_bytes();
        assert_eq!(ByteScript::new(&bytes).generate::<char>(), character);
    }
}

#[test]
fn each_character_is_a_range() {
    let mut rng = zeros();
    for character in '\0'..=char::MAX {
        assert_eq!(rng.generate_range(character..=character), Ok(character));
    }
}

#[test]
fn ends_of_ranges() {
    let (before, after) = ('\u{d7ff}', '\u{e000}');
    for (low, high, by_least, by_greatest) in [
        (Included(before), Included(after), Ok(before), Ok(after)),
        (Excluded(before), Included(after), Ok(after), Ok(after)),
        (Included(before), Excluded(after), Ok(before), Ok(before)),
        (Excluded(before), Excluded(after), Err(Empty), Err(Empty)),
        (Unbounded, Included('\u{1}'), Ok('\0'), Ok('\u{1}')),
        (
            Included('\u{10fffe}'),
            Unbounded,
            Ok('\u{10fffe}'),
            Ok(char::MAX),
        ),
        (Excluded(char::MAX), Unbounded, Err(Empty), Err(Empty)),
        (Unbounded, Excluded('\0'), Err(Empty), Err(Empty)),
        (Included('b'), Included('a'), Err(Empty), Err(Empty)),
    ] {
        for (byte, expected) in [(0, by_least), (255, by_greatest)] {
            let mut rng = Constant::new(byte);
            assert_eq!(
                rng.generate_range((low, high)),
                expected,
                "{low:?} {high:?}"
            );
            assert_eq!(rng.drawn(), u64::from(expected != Err(Empty)));
        }
    }
    assert_eq!(Constant::new(255).generate_range::<char>(..), Ok(char::MAX));
}

/// The word 0 selects U+0000 as a plain character, but a range of all characters rejects it.
#[test]
fn all_characters_are_a_range() {
    for bounds in [
        (Unbounded, Unbounded),
        (Included('\0'), Included(char::MAX)),
    ] {
        let mut rng = zeros();
        assert_eq!(rng.generate_range::<char>(bounds), Err(Exhausted));
        assert_eq!(rng.drawn(), 128);
    }
}
