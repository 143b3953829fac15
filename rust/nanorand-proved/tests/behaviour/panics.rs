//! The calls that panic: each returns what its twin returns, and a panic names the mistake and the caller.
#![allow(clippy::reversed_empty_ranges)] // they are tested

use crate::common::{rising, zeros, Constant};
use nanorand_proved::{
    AnyRng, ChaCha20Stream, Pcg64, RandomGen, RandomRange, RangeError, Rng, WyRand,
};
use std::cell::RefCell;
use std::fmt::Debug;
use std::ops::Bound::{self, Excluded, Included, Unbounded};
use std::panic::{catch_unwind, set_hook, take_hook, AssertUnwindSafe};
use std::sync::Once;
use std::time::Duration;

/// Each call returns what its twin returns, and leaves the same state.
fn agree<G: Rng<N> + Clone + Debug + PartialEq, const N: usize>(mut rng: G) {
    let mut same = rng.clone();
    let (mut left, mut right) = (rising(40), rising(40));
    let weights = [3, 0, 4, 5];
    let (mut places, mut same_places) = ([0; 5], [0; 5]);
    for count in 5..40_usize {
        assert_eq!(Ok(rng.range(..count)), same.generate_range(..count));
        let number = rng.generate_range_or_panic(3..=count);
        assert_eq!(Ok(number), same.generate_range(3..=count));
        rng.permute(&mut left);
        assert_eq!(same.shuffle(&mut right), Ok(()));
        rng.shuffle_or_panic(&mut left[..count]);
        assert_eq!(same.shuffle(&mut right[..count]), Ok(()));
        rng.partial_shuffle_or_panic(&mut left, count);
        assert_eq!(same.partial_shuffle(&mut right, count), Ok(()));
        assert_eq!(Ok(rng.choose_or_panic(&left)), same.choose(&right));
        *rng.choose_mut_or_panic(&mut left) = count;
        *same.choose_mut(&mut right).expect("items") = count;
        let index = rng.choose_weighted_or_panic(&weights);
        assert_eq!(Ok(index), same.choose_weighted(&weights));
        assert_eq!(Ok(rng.ratio_or_panic(3, 7)), same.ratio(3, 7));
        rng.sample_or_panic(count, &mut places);
        assert_eq!(same.sample(count, &mut same_places), Ok(()));
        assert_eq!((&left, places, &rng), (&right, same_places, &same));
    }
}

#[test]
fn twins_agree() {
    agree(WyRand::new_seed(42));
    agree(Pcg64::new_seed(42));
    agree(ChaCha20Stream::new_key([1; 32], [2; 8]));
}

thread_local! {
    static SAID: RefCell<String> = const { RefCell::new(String::new()) };
}

/// A type of a program's own, which does not say how its bounds are written.
#[derive(Clone, Copy)]
struct Card;

impl<G: Rng<N>, const N: usize> RandomGen<G, N> for Card {
    fn random(_rng: &mut G) -> Self {
        Card
    }
}

impl<G: Rng<N>, const N: usize> RandomRange<G, N> for Card {
    fn random_range(_: &mut G, _: Bound<Self>, _: Bound<Self>) -> Result<Self, RangeError> {
        Err(RangeError::Empty)
    }
}

/// The call panics with this text at the end or in quotation marks, names this file, and draws `drawn` words before.
fn panics<F: FnMut(&mut Constant) -> R, R>(text: &str, drawn: u64, mut call: F) {
    static HOOK: Once = Once::new();
    HOOK.call_once(|| {
        let before = take_hook();
        set_hook(Box::new(move |said| {
            SAID.with(|text| *text.borrow_mut() = said.to_string());
            before(said);
        }));
    });
    let mut rng = zeros();
    let ended = catch_unwind(AssertUnwindSafe(|| drop(call(&mut rng))));
    assert!(ended.is_err(), "{text}");
    let said = SAID.with(RefCell::take);
    let whole = said.ends_with(&format!("\n{text}")) || said.contains(&format!("'{text}',"));
    assert!(whole && said.contains(file!()), "{text}: {said}");
    assert_eq!(rng.drawn(), drawn, "{text}");
}

/// The same for a generator and for a `dyn AnyRng`, which has calls of its own.
macro_rules! both_panic {
    ($text:expr, $drawn:expr, |$rng:ident| $call:expr) => {
        panics($text, $drawn, |$rng| $call);
        panics($text, $drawn, |own| {
            let mut lent = own.as_any();
            let $rng: &mut dyn AnyRng = &mut lent;
            $call
        });
    };
}

#[test]
fn empty_ranges() {
    fn is_empty<F: FnMut(&mut Constant) -> R, R>(range: &str, call: F) {
        panics(&format!("cannot sample empty range {range}"), 0, call);
    }
    is_empty("5..5", |rng| rng.range(5..5_u8));
    is_empty("5..5", |rng| rng.as_any().rng().range(5..5_u8));
    is_empty("7..=6", |rng| rng.generate_range_or_panic(7..=6_i64));
    is_empty("..0", |rng| rng.range(..0_usize));
    is_empty("255 (excluded)..", |rng| {
        rng.range((Excluded(255_u8), Unbounded))
    });
    is_empty("-3 (excluded)..=-3", |rng| {
        rng.range((Excluded(-3_i8), Included(-3)))
    });
    is_empty("'b'..='a'", |rng| rng.range('b'..='a'));
    is_empty("1.5..1.5", |rng| rng.range(1.5..1.5_f64));
    is_empty("2.0..NaN", |rng| rng.range(2.0..f32::NAN));
    is_empty("9..=8", |rng| rng.range(9..=8_u128));
    is_empty("9..9", |rng| rng.range(9..9_i128));
    is_empty("2s..1.5s", |rng| {
        rng.range(Duration::from_secs(2)..Duration::from_millis(1500))
    });
    is_empty("_..=_", |rng| rng.range(Card..=Card));
}

/// Each integer type writes its bounds.
#[test]
fn empty_ranges_of_each_type() {
    macro_rules! of {
        ($($number:ident)+) => { $(
            let range = format!("cannot sample empty range {}..=3", $number::MAX);
            panics(&range, 0, |rng| rng.range($number::MAX..=3));
        )+ };
    }
    of!(u8 u16 u32 u64 u128 usize i8 i16 i32 i64 i128 isize);
}

#[test]
fn mistakes() {
    let slice = "cannot choose from an empty slice";
    both_panic!(slice, 0, |rng| rng.choose_or_panic::<u8>(&[]).to_owned());
    both_panic!(slice, 0, |rng| rng
        .choose_mut_or_panic::<u8>(&mut [])
        .to_owned());
    panics(slice, 0, |rng| {
        rng.as_any().rng().choose_or_panic::<u8>(&[]).to_owned()
    });
    both_panic!("no item has a weight", 0, |rng| {
        rng.choose_weighted_or_panic(&[0, 0])
    });
    both_panic!("the weights add up to 2^64 or more", 0, |rng| {
        rng.choose_weighted_or_panic(&[u64::MAX, 1])
    });
    both_panic!("`denominator` must be at least 1", 0, |rng| {
        rng.ratio_or_panic(1, 0)
    });
    both_panic!("`places` must have at most `count` slots", 0, |rng| {
        rng.sample_or_panic(1, &mut [0; 2]);
    });
    both_panic!("cannot sample empty range 5..5", 0, |rng| rng.range(5..5));
    both_panic!("cannot sample empty range 5..5", 0, |rng| {
        rng.generate_range_or_panic(5..5)
    });
    for (p, text) in [(-0.5, "-0.5"), (1.5, "1.5"), (f64::NAN, "NaN")] {
        let text = format!("`p` must be from 0 to 1, not {text}");
        both_panic!(&text, 0, |rng| rng.gen_bool(p));
        panics(&text, 0, |rng| rng.as_any().rng().gen_bool(p));
    }
}

#[test]
fn rejected_words() {
    let text = "128 words in a row were rejected";
    both_panic!(text, 128, |rng| rng.range(0..3_u8));
    both_panic!(text, 128, |rng| rng.generate_range_or_panic(0..3_i64));
    both_panic!(text, 128, |rng| rng.permute(&mut [1, 2, 3]));
    both_panic!(text, 128, |rng| rng.shuffle_or_panic(&mut [1, 2, 3]));
    both_panic!(text, 128, |rng| {
        rng.partial_shuffle_or_panic(&mut [1, 2, 3], 1);
    });
    both_panic!(text, 128, |rng| rng.choose_or_panic(&[1, 2, 3]).to_owned());
    both_panic!(text, 128, |rng| {
        rng.choose_mut_or_panic(&mut [1, 2, 3]).to_owned()
    });
    both_panic!(text, 128, |rng| rng.choose_weighted_or_panic(&[1, 2]));
    both_panic!(text, 128, |rng| rng.ratio_or_panic(1, 3));
    both_panic!(text, 128, |rng| rng.sample_or_panic(3, &mut [0; 1]));
}

/// The word of a `u64` is below p * 2^64 exactly for the p that are greater than its 2^-64th part.
#[test]
fn chances() {
    let half = 0.5;
    let scripted = |word: u64, p: f64| {
        let mut rng = crate::common::ByteScript::new(&word.to_le_bytes());
        rng.gen_bool(p)
    };
    assert!(scripted(u64::MAX, 1.0) && scripted(0, f64::MIN_POSITIVE.max(2.0_f64.powi(-64))));
    assert!(!scripted(0, 0.0) && !scripted(0, -0.0) && !scripted(0, f64::MIN_POSITIVE));
    assert!(scripted((1 << 63) - 1, half) && !scripted(1 << 63, half));
    let third = 1.0 / 3.0; // 6004799503160661 * 2^-54
    assert!(scripted((6_004_799_503_160_661 << 10) - 1, third));
    assert!(!scripted(6_004_799_503_160_661 << 10, third));
    for p in [0.0, half, 1.0] {
        let mut rng = zeros();
        let _ = rng.gen_bool(p);
        assert_eq!(rng.drawn(), 1, "{p}");
    }
}

/// Each of the 62 characters is drawn by as many words as any number below 62.
#[test]
fn alphanumeric_characters() {
    let all = "ABCDEFGHIJKLMNOPQRSTUVWXYZabcdefghijklmnopqrstuvwxyz0123456789";
    let (mut rng, mut same) = (WyRand::new_seed(42), WyRand::new_seed(42));
    for _ in 0..1000 {
        let place = same.range(..62_u32) as usize;
        assert_eq!(Some(rng.alphanumeric()), all.chars().nth(place));
    }
    assert_eq!(rng, same);
    let mut rng = zeros();
    assert_eq!((rng.alphanumeric(), rng.drawn()), ('A', 128));
    assert_eq!(Constant::new(255).alphanumeric(), '9');
}
