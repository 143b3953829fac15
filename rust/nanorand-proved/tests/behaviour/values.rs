//! Tuples, arrays, nonzero integers, and 128-bit ranges. Literal numbers of ranges are from another
//! implementation of the rule.

use crate::common::{zeros, ByteScript, Script, Steps};
use nanorand_proved::replay::{replay, Answer, Call, Kind};
use nanorand_proved::{RandomGen, RangeError, Rng, WyRand};
use std::fmt::Debug;
use std::num::{NonZeroI128, NonZeroI16, NonZeroI32, NonZeroI64, NonZeroI8, NonZeroIsize};
use std::num::{NonZeroU128, NonZeroU16, NonZeroU32, NonZeroU64, NonZeroU8, NonZeroUsize};

/// Asserts the value for the blocks 0, 8, 16, .., and how many blocks it takes.
fn takes<T: RandomGen<Steps, 8> + PartialEq + Debug>(value: &T, blocks: u64) {
    let mut steps = Steps::new();
    assert_eq!(&steps.generate::<T>(), value);
    assert_eq!(steps.drawn(), blocks, "{value:?}");
}

#[test]
fn members_in_their_order() {
    takes(&(0_u8,), 1);
    takes(&(0x0100_u16, 8_u8, 0x1312_1110_u32, true), 4);
    takes(&((0_u8, 8_u8), [16_u8, 17], (24_u8, (32_u8,))), 5);
    takes(
        &(
            0_i8, 8_i8, 16_i8, 24_i8, 32_i8, 40_i8, 48_i8, 56_i8, 64_i8, 72_i8, 80_i8,
        ),
        11,
    );
    takes(
        &(
            0_i8, 8_i8, 16_i8, 24_i8, 32_i8, 40_i8, 48_i8, 56_i8, 64_i8, 72_i8, 80_i8, 88_i8,
        ),
        12,
    );
}

#[test]
fn items_in_their_order() {
    takes(&[0_u8, 1, 2], 1);
    takes(&[0_i8, 8, 16], 3);
    takes(&[0x0100_u16, 0x0908, 0x1110], 3);
    takes(&[[0_u8, 1], [8, 9]], 2);
    takes(&[(0_u8, false); 0], 0);
    takes(&[(0_u8, true), (16, true)], 4);
    let mut arrays = [[9_u16; 2]; 2];
    Steps::new().fill(&mut arrays);
    assert_eq!(arrays, [[0x0100, 0x0908], [0x1110, 0x1918]]);
}

/// An array of any values but bytes takes what its items take separately.
#[test]
#[allow(clippy::float_cmp)] // the same numbers, drawn one by one
fn arrays_of_any_items() {
    macro_rules! check {
        ($($item:ty),+) => { $({
            let (mut rng, mut same) = (Steps::new(), Steps::new());
            assert_eq!(rng.generate::<[$item; 33]>(), [(); 33].map(|()| same.generate::<$item>()));
            assert_eq!(rng, same, stringify!($item));
        })+ };
    }
    check!(bool, char, f32, f64, i8, i16, i32, i64, i128, isize, u16, u32, u64, u128, usize);
    check!(
        NonZeroU8,
        NonZeroI8,
        NonZeroU16,
        (u8,),
        (u8, bool),
        [u8; 3],
        [bool; 2],
        [u16; 3]
    );
}

/// A range of one number takes a word as well.
#[test]
fn ranges_of_one_number() {
    macro_rules! check {
        ($($number:ty)+) => { $({
            let (mut rng, mut same) = (Steps::new(), Steps::new());
            let number: $number = 5;
            assert_eq!(rng.generate_range(number..=number), Ok(number));
            let _: $number = same.generate();
            assert_eq!(rng, same, stringify!($number));
        })+ };
    }
    check!(i8 i16 i32 i64 i128 isize u8 u16 u32 u64 u128 usize);
    let mut rng = Steps::new();
    assert_eq!(rng.generate_range('a'..='a'), Ok('a'));
    assert_eq!(rng.generate_range(2.5..=2.5_f64), Ok(2.5));
    assert_eq!(rng.drawn(), 2);
}

#[test]
fn integers_that_are_not_zero() {
    macro_rules! check {
        ($($number:ident)+) => { $({
            let words = std::mem::size_of::<$number>().max(8) / 8;
            for (zeros, found) in [(0, true), (1, true), (127, true), (128, false)] {
                let mut bytes = vec![0; zeros * words];
                bytes.resize((zeros + 1) * words, 255);
                let mut rng = Script::new(&bytes);
                let expected = if found { Script::new(&[255; 2]).generate() } else { 1 };
                assert_eq!(rng.generate::<$number>().get(), expected, "{zeros}");
                assert_eq!(rng.drawn(), (zeros + usize::from(found)) * words);
            }
        })+ };
    }
    check!(NonZeroU8 NonZeroU16 NonZeroU32 NonZeroU64 NonZeroU128 NonZeroUsize);
    check!(NonZeroI8 NonZeroI16 NonZeroI32 NonZeroI64 NonZeroI128 NonZeroIsize);
}

/// A number with a single bit set is accepted, wherever the bit is.
#[test]
fn wide_integers_that_are_not_zero() {
    for bit in 0..128 {
        let words = [[0; 16], [0; 16], (1_u128 << bit).to_le_bytes()].concat();
        let number: NonZeroU128 = ByteScript::new(&words).generate();
        assert_eq!(number.get(), 1 << bit);
        let mut rng = ByteScript::new(&words);
        let number: NonZeroI128 = rng.generate();
        assert_eq!(number.get(), 1 << bit);
        assert_eq!(rng.drawn(), 48);
    }
}

/// Even if `usize` has fewer bits: it gets the low bits of a 64-bit value, and its ranges draw
/// 64-bit words.
#[test]
#[allow(clippy::cast_possible_truncation, clippy::cast_possible_wrap)]
fn words_of_64_bits_on_every_machine() {
    for seed in 0..50 {
        let fresh = WyRand::new_seed(seed);
        let (word, signed) = fresh.clone().generate::<(u64, i64)>();
        let values: (usize, isize) = fresh.clone().generate();
        assert_eq!(values, (word as usize, signed as isize));
        let index: usize = fresh.clone().range(7..1000);
        assert_eq!(Ok(index as u64), fresh.clone().generate_range(7..1000_u64));
        let offset: isize = fresh.clone().range(-5..=5);
        assert_eq!(Ok(offset as i64), fresh.clone().generate_range(-5..=5_i64));
        let mut answers = [Answer::Empty; 2];
        let calls = [Call::Gen(Kind::Usize), Call::Gen(Kind::Isize)];
        replay(&mut fresh.clone(), &calls, &mut [], &mut answers);
        assert_eq!(
            answers,
            [Answer::Unsigned(word.into()), Answer::Signed(signed.into())]
        );
    }
}

#[test]
fn wide_numbers() {
    let mut rng = WyRand::new_seed(42);
    assert_eq!(
        [(); 4].map(|()| rng.generate_range(..10_u128)),
        [9, 9, 9, 0].map(Ok)
    );
    for (low, high, number) in [
        (
            1,
            1 << 127,
            155_384_775_427_401_270_341_259_404_175_952_108_059,
        ),
        ((1 << 64) - 5, (1 << 64) + 5, (1 << 64) + 5),
        (
            12_345_678_901_234_567_890_123_456_789,
            (3 << 126) + 7,
            233_077_163_142_172_650_828_258_571_894_868_647_672,
        ),
        (
            0,
            3 << 126,
            233_077_163_141_101_905_511_889_106_263_928_162_087_u128,
        ),
    ] {
        assert_eq!(WyRand::new_seed(42).generate_range(low..=high), Ok(number));
    }
}

/// The first word of each of the first two is rejected.
#[test]
fn wide_signed_numbers() {
    for (low, high, first, second) in [
        (
            i128::MIN,
            1 << 126,
            44_926_550_535_414_776_591_121_273_273_865_202_353,
            41_823_297_102_053_648_214_407_371_119_940_079_123,
        ),
        (
            -(3 << 125),
            3 << 125,
            87_461_846_400_532_084_524_043_099_202_836_228_785,
            84_358_592_967_170_956_147_329_197_048_911_105_555,
        ),
        (-10, 10, 2, 7),
        (
            i128::MIN,
            i128::MAX,
            27_840_427_128_547_182_258_028_751_096_261_486_738,
            116_615_795_200_709_446_032_057_465_603_781_638_380_i128,
        ),
    ] {
        let mut rng = WyRand::new_seed(9);
        assert_eq!(rng.generate_range(low..=high), Ok(first));
        assert_eq!(rng.generate_range(low..=high), Ok(second));
    }
}

/// The words whose low halves are the greatest rejected one and the least accepted one.
#[test]
fn wide_words_at_the_border() {
    for (size, rejected, accepted) in [
        (
            3_u128,
            0_u128,
            0xaaaa_aaaa_aaaa_aaaa_aaaa_aaaa_aaaa_aaab_u128,
        ),
        ((1 << 64) + 1, 0, 0xffff_ffff_ffff_ffff_0000_0000_0000_0001),
        (
            10_u128.pow(30) + 57,
            0x4fe2_5841_1148_dd87_c90e_ed8e_7393_c5f9,
            0xffff_ffff_ffff_ffff_ffff_ffff_ebb7_b402,
        ),
        ((1 << 127) - 1, (1 << 127) - 1, u128::MAX - 1),
        ((1 << 127) + 1, (1 << 127) - 2, u128::MAX),
        (u128::MAX, 0, u128::MAX),
    ] {
        let mut rng = ByteScript::new(&[rejected.to_le_bytes(), accepted.to_le_bytes()].concat());
        assert_eq!(rng.generate_range(..size), Ok(size - 1));
        assert_eq!(rng.drawn(), 32, "{size}");
    }
    let mut rng = zeros();
    assert_eq!(rng.generate_range(..3_u128), Err(RangeError::Exhausted));
    assert_eq!(rng.drawn(), 2 * 128);
}

/// The halves of a product, the high one first, computed with 32-bit digits.
fn long_product(left: u128, right: u128) -> (u128, u128) {
    let digits = |number: u128| {
        [0, 32, 64, 96].map(|shift| u64::try_from(number >> shift & 0xffff_ffff).expect("a digit"))
    };
    let mut product = [0_u64; 8];
    for (place, digit) in digits(left).iter().enumerate() {
        let mut carry = 0;
        for (index, other) in (place..).zip(digits(right)) {
            let sum = product[index] + digit * other + carry;
            product[index] = sum & 0xffff_ffff;
            carry = sum >> 32;
        }
        product[place + 4] = carry;
    }
    let [low, high] = [0, 4].map(|first| {
        let digits = product[first..first + 4].iter().rev();
        digits.fold(0, |number, digit| number << 32 | u128::from(*digit))
    });
    (high, low)
}

/// 2^128 modulo the size. This is the number of low halves that are rejected, the least ones.
fn count_of_rejected(size: u128) -> u128 {
    (u128::MAX % size + 1) % size
}

/// The number that a word selects, by the definition.
fn named(size: u128, word: u128) -> Option<u128> {
    let (number, low) = long_product(word, size);
    (low >= count_of_rejected(size)).then_some(number)
}

/// The least word whose product with the size has this low half, which must be divisible by the
/// greatest power of 2 that divides the size.
fn word_of(size: u128, low: u128) -> u128 {
    let shift = size.trailing_zeros();
    let odd = size >> shift;
    let mut inverse = odd; // correct in its lowest three bits, then in twice as many
    for _ in 0..6 {
        inverse = inverse.wrapping_mul(2_u128.wrapping_sub(odd.wrapping_mul(inverse)));
    }
    (low >> shift).wrapping_mul(inverse) & u128::MAX >> shift
}

/// The words at each border, below and above it, and some others.
fn words_at_borders(size: u128) -> Vec<u128> {
    let step = 1 << size.trailing_zeros();
    let others = u128::MAX
        .checked_shl(128 - size.trailing_zeros())
        .unwrap_or(0);
    let borders = [
        0,
        count_of_rejected(size),
        size,
        size << 1,
        1 << 64,
        1 << 127,
    ];
    let lows = borders.map(|low| low & !(step - 1));
    let words = lows.map(|low| {
        [low.wrapping_sub(step), low, low.wrapping_add(step)].map(|low| word_of(size, low))
    });
    let mut words = words.concat();
    words.extend(words.clone().iter().map(|word| word | others));
    words.extend([1, u128::MAX, u128::MAX / 3, u128::MAX / size]);
    words
}

/// Tests ranges that begin at 0, that end at the maximum, and that begin at the minimum.
#[allow(clippy::cast_possible_wrap)] // the minimum has the rank 0
fn check_wide_size(size: u128) {
    let last = word_of(size, count_of_rejected(size));
    let end = named(size, last).expect("the first that is accepted");
    for word in words_at_borders(size) {
        let (number, count) = named(size, word).map_or((end, 32), |number| (number, 16));
        let fresh = ByteScript::new(&[word.to_le_bytes(), last.to_le_bytes()].concat());
        let mut rng = fresh.clone();
        assert_eq!(rng.generate_range(..size), Ok(number), "{size} {word}");
        assert_eq!(rng.drawn(), count, "{size} {word}");
        let first = u128::MAX - size + 1;
        let drawn = fresh.clone().generate_range(first..);
        assert_eq!(drawn, Ok(first + number), "{size} {word}");
        let signed = |number| i128::MIN.wrapping_add(number as i128);
        let drawn = fresh.clone().generate_range(..=signed(size - 1));
        assert_eq!(drawn, Ok(signed(number)), "{size} {word}");
    }
}

#[test]
fn wide_ranges_are_those_of_the_definition() {
    (1..=300).for_each(check_wide_size);
    for bit in 9..128 {
        let power = 1_u128 << bit;
        (power - 3..=power + 3).for_each(check_wide_size);
        let sizes = [power / 3, power / 5 * 3, power / 7 * 6, power | power >> 1];
        sizes.into_iter().for_each(check_wide_size);
    }
    (3..39).for_each(|power| check_wide_size(10_u128.pow(power)));
    (0..5).for_each(|less| check_wide_size(u128::MAX - less));
}
