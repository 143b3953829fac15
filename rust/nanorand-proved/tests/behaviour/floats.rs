//! Floating-point numbers and their ranges, by the rule of `RandomRange`. Literal numbers are from
//! another implementation of the rule.
#![allow(clippy::float_cmp)] // each number is known to the last bit

use crate::common::{zeros, Constant, Script, Steps};
use nanorand_proved::RangeError::{Empty, Exhausted};
use nanorand_proved::{BufferedRng, Rng, WyRand};
use std::ops::Bound::{Excluded, Included, Unbounded};
use std::ops::RangeBounds;

#[test]
#[allow(clippy::cast_precision_loss)] // 53 bits
fn parts_of_one() {
    let mut rng = WyRand::new_seed(42);
    let wide = [
        0.680_824_086_038_831_3,
        0.913_269_628_593_499_9,
        0.794_301_409_546_801_7,
    ];
    assert_eq!(rng.generate::<[f64; 3]>(), wide);
    let mut rng = WyRand::new_seed(42);
    assert_eq!(
        rng.generate::<[f32; 3]>(),
        [0.865_870_7, 0.239_148_68, 0.170_215_79]
    );
    let mut bytes = BufferedRng::new(Steps::new());
    assert_eq!(bytes.generate::<f32>(), 197_121.0 / 16_777_216.0);
    assert_eq!(bytes.generate::<u8>(), 4);
    let word: u64 = 0x0c0b_0a09_0807_0605;
    assert_eq!(
        bytes.generate::<f64>(),
        (word >> 11) as f64 / 9_007_199_254_740_992.0
    );
}

#[test]
fn numbers_of_ranges() {
    let mut rng = WyRand::new_seed(42);
    for number in [
        6.010_301_075_485_390_5,
        8.915_870_357_418_749,
        7.428_767_619_335_021,
    ] {
        assert_eq!(rng.generate_range(-2.5..10.0), Ok(number));
    }
    let mut rng = WyRand::new_seed(42);
    for number in [8.323_384_f32, 0.489_358_66, -0.372_302_53, -0.055_903_91] {
        assert_eq!(rng.generate_range(-2.5..=10.0), Ok(number));
    }
}

/// The first numbers of a range whose high end is included or excluded. The low end may be either.
macro_rules! check_numbers {
    ($number:ident, $low:literal, $high:literal, $included:expr, $excluded:expr) => {
        for low in [Included($low), Excluded($low)] {
            let highs = [(Included($high), $included), (Excluded($high), $excluded)];
            for (high, numbers) in highs {
                let mut rng = WyRand::new_seed(42);
                for number in numbers {
                    let drawn = rng.generate_range::<$number>((low, high));
                    assert_eq!(drawn, Ok(number), "{low:?} {high:?}");
                }
            }
        }
    };
}

/// The second range of each type is wider than the type's maximum.
#[test]
fn numbers_between_ends() {
    check_numbers!(
        f64,
        -2.5,
        10.0,
        [6.010_301_075_485_392, 8.915_870_357_418_75],
        [6.010_301_075_485_390_5, 8.915_870_357_418_749]
    );
    check_numbers!(
        f64,
        -1.5e308,
        1.25e308,
        [3.722_662_366_067_863_4e307, 1.011_491_478_632_125e308],
        [3.722_662_366_067_859_4e307, 1.011_491_478_632_125e308]
    );
    check_numbers!(
        f32,
        -2.5,
        10.0,
        [8.323_384, 0.489_358_66],
        [8.323_384, 0.489_358_43]
    );
    check_numbers!(
        f32,
        -3e38,
        2.5e38,
        [1.762_289_5e38, -1.684_682_2e38],
        [1.762_289e38, -1.684_682_3e38]
    );
}

/// The numbers that the least and the greatest word select.
macro_rules! check_ends {
    ($number:ident) => {{
        let (least, greatest, ulp) = ($number::MIN, $number::MAX, $number::EPSILON);
        let (half, quarter) = (ulp / 2.0, ulp / 4.0);
        let [first, second, third] = [1, 2, 3].map($number::from_bits);
        for (low, high, by_least, by_greatest) in [
            (Included(0.0), Excluded(1.0), 0.0, 1.0 - half),
            (Included(0.0), Included(1.0), 0.0, 1.0),
            // The distances are rounded, down and up.
            (Included(-1.0), Included(quarter), -1.0, quarter),
            (Included(-1.0), Included(3.0 * quarter), -1.0, 3.0 * quarter),
            (Included(3.5), Included(3.5), 3.5, 3.5),
            // The smallest positive numbers cannot be halved.
            (Included(first), Included(first), first, first),
            (Included(first), Included(third), first, third),
            (Included(second), Included(third), second, third),
            (Included(-third), Included(first), -third, first),
            (Included(-first), Included(0.0), -first, 0.0),
            (Included(0.0), Included(-0.0), 0.0, 0.0),
            (Included(least), Included(greatest), least, greatest),
            (
                Included(least),
                Excluded(greatest),
                least,
                greatest - greatest * ulp,
            ),
            (Unbounded, Unbounded, least, greatest),
            (Included(7.0), Unbounded, 7.0, greatest),
            (Unbounded, Included(7.0), least, 7.0),
        ] {
            for (byte, number) in [(0, by_least), (255, by_greatest)] {
                let drawn = Constant::new(byte).generate_range::<$number>((low, high));
                assert_eq!(drawn, Ok(number), "{low:?} {high:?}");
            }
        }
    }};
}

macro_rules! check_empty {
    ($number:ident) => {{
        let (none, endless) = ($number::NAN, $number::INFINITY);
        let mut rng = zeros();
        for (low, high) in [
            (Included(none), Unbounded),
            (Unbounded, Excluded(none)),
            (Included(-endless), Unbounded),
            (Excluded(-endless), Included(0.0)),
            (Unbounded, Included(endless)),
            (Included(endless), Included(endless)),
            (Included(1.0), Included(0.0)),
            (Included(1.0), Excluded(1.0)),
            (Excluded(1.0), Included(1.0)),
            (Excluded($number::MAX), Unbounded),
            (Excluded($number::MIN), Included($number::MIN)),
            (Excluded(-0.0), Included(0.0)),
            (Unbounded, Excluded($number::MIN)),
        ] {
            let drawn = rng.generate_range::<$number>((low, high));
            assert_eq!(drawn, Err(Empty), "{low:?} {high:?}");
        }
        assert_eq!(rng.drawn(), 0);
    }};
}

/// Bounds of any size, including infinities, NaN and numbers at which the rule changes. The least
/// or the greatest word selects an included end. An excluded end is never drawn, and no number is
/// outside the range.
macro_rules! check_bounds {
    ($number:ident) => {{
        let mut rng = WyRand::new_seed(1);
        let (small, great) = ($number::MIN_POSITIVE, $number::MAX);
        let mut ends: Vec<$number> = [1, 2, 3, 4, 5].map($number::from_bits).to_vec();
        ends.extend([small / 2.0, small, small * 2.0, $number::EPSILON, 1.0, 3.0]);
        ends.extend([great / 4.0, great / 2.0, great / 1.9, great / 1.1, great]);
        ends.extend([0.0, $number::INFINITY, $number::NAN]);
        ends.extend([(); 40].map(|()| $number::from_bits(rng.generate())));
        let opposite: Vec<$number> = ends.iter().map(|end| -end).collect();
        ends.extend(opposite);
        for low in &ends {
            for high in &ends {
                let some = low.is_finite() && high.is_finite() && low < high;
                let (least, greatest) = (|| Constant::new(0), || Constant::new(255));
                let [included, excluded] = [(Included(*low)), (Excluded(*low))];
                for low_end in [included, excluded] {
                    for high_end in [Included(*high), Excluded(*high)] {
                        let drawn = rng.generate_range::<$number>((low_end, high_end));
                        let is_one = low == high && low.is_finite();
                        let both = low_end == included && high_end == Included(*high);
                        let empty = drawn == Err(Empty);
                        assert_eq!(empty, !(some || is_one && both), "{low_end:?} {high_end:?}");
                        if let Ok(number) = drawn {
                            assert!((low_end, high_end).contains(&number), "{number}");
                        }
                    }
                    if some {
                        let last = greatest().generate_range((low_end, Included(*high)));
                        assert_eq!(last, Ok(*high), "{low_end:?}");
                        let last = greatest().generate_range((low_end, Excluded(*high)));
                        assert!(last.map_or(true, |number| number < *high), "{low} {high}");
                    }
                }
                if some {
                    let first = least().generate_range::<$number>((included, Included(*high)));
                    assert_eq!(first, Ok(*low), "{high}");
                    let first = least().generate_range::<$number>((excluded, Included(*high)));
                    assert_eq!(first, Err(Exhausted), "{low} {high}");
                }
            }
        }
    }};
}

/// Words that would select an excluded end are rejected, at most 128 times.
macro_rules! check_rejected {
    ($number:ident) => {{
        let next = 1.0 + $number::EPSILON;
        let mut only_the_last = [0; 128];
        only_the_last[127] = 255;
        for (low, high, words, number) in [
            (Included(1.0), Excluded(next), &[255, 255, 0][..], Ok(1.0)),
            (Excluded(1.0), Included(next), &[0, 0, 255], Ok(next)),
            (
                Excluded(1.0),
                Excluded(next + $number::EPSILON),
                &[0, 255, 127],
                Ok(next),
            ),
            (Excluded(1.0), Included(next), &only_the_last, Ok(next)),
            // Zero is excluded whatever its sign. The least number can be excluded as well.
            (Excluded(-0.0), Included(1.0), &[0, 255], Ok(1.0)),
            (Excluded(0.0), Included(1.0), &[0, 0, 255], Ok(1.0)),
            (
                Excluded($number::MIN),
                Unbounded,
                &[0, 255],
                Ok($number::MAX),
            ),
            (Excluded($number::MIN), Included(0.0), &[0, 255], Ok(0.0)),
            (Included(1.0), Excluded(next), &[255; 128], Err(Exhausted)),
            (Excluded(1.0), Included(next), &[0; 128], Err(Exhausted)),
        ] {
            let mut rng = Script::new(words);
            assert_eq!(
                rng.generate_range::<$number>((low, high)),
                number,
                "{words:?}"
            );
            assert_eq!(rng.drawn(), words.len(), "{words:?}");
        }
    }};
}

#[test]
fn ranges_of_f32() {
    check_ends!(f32);
    check_empty!(f32);
    check_bounds!(f32);
    check_rejected!(f32);
}

#[test]
fn ranges_of_f64() {
    check_ends!(f64);
    check_empty!(f64);
    check_bounds!(f64);
    check_rejected!(f64);
}
