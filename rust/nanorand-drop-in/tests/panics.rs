//! The texts of the panics.
#![cfg(feature = "std")]

use nanorand::crypto::chacha::chacha_block;
use nanorand::{ChaCha, Rng, WyRand};
use std::cell::RefCell;
use std::io::Read;
use std::ops::{Bound, RangeBounds};
use std::panic::{catch_unwind, set_hook, UnwindSafe};

fn text<T>(call: impl FnOnce() -> T + UnwindSafe) -> String {
    let panic = catch_unwind(call).err().expect("a panic");
    let fixed = panic.downcast_ref::<&str>().map(ToString::to_string);
    fixed
        .or_else(|| panic.downcast_ref().cloned())
        .expect("a text")
}

/// A generator of zeros only.
#[derive(Clone)]
struct Stuck;

impl Rng<1> for Stuck {
    fn rand(&mut self) -> [u8; 1] {
        [0]
    }
}

#[test]
#[allow(clippy::reversed_empty_ranges)]
fn ranges_without_a_number() {
    fn check(range: impl RangeBounds<i16> + UnwindSafe, shown: &str) {
        let panic = text(|| WyRand::new_seed(1).generate_range(range));
        assert_eq!(panic, format!("the range {shown} contains no number"));
    }
    check(5..5, "5..5");
    check(-5..=-6, "-5..=-6");
    check(..i16::MIN, "..-32768");
    check(
        (Bound::Excluded(4), Bound::Included(4)),
        "(Excluded(4), Included(4))",
    );
    check(
        (Bound::Excluded(i16::MAX), Bound::Unbounded),
        "(Excluded(32767), Unbounded)",
    );
}

#[test]
fn words_that_are_rejected() {
    let rejected = "128 words in a row were rejected";
    let check = |range: (Bound<u8>, Bound<u8>), shown| {
        let ranged = text(|| Stuck.generate_range(range));
        assert_eq!(ranged, format!("{rejected} for the range {shown}"));
    };
    check((Bound::Included(10), Bound::Included(12)), "10..=12");
    check((Bound::Included(10), Bound::Excluded(13)), "10..13");
    check((Bound::Included(10), Bound::Unbounded), "10..");
    check((Bound::Unbounded, Bound::Included(10)), "..=10");
    check((Bound::Unbounded, Bound::Excluded(10)), "..10");
    let shown = "(Excluded(9), Excluded(13))";
    check((Bound::Excluded(9), Bound::Excluded(13)), shown);
    assert_eq!(text(|| Stuck.shuffle([1, 2, 3])), rejected);
}

/// Ranges and shuffles panic at the place of the call.
#[test]
#[allow(clippy::reversed_empty_ranges)]
fn places_are_those_of_the_callers() {
    thread_local!(static PLACE: RefCell<String> = const { RefCell::new(String::new()) });
    set_hook(Box::new(|panic| {
        let file = panic.location().map_or("", |place| place.file());
        PLACE.with(|place| place.replace(file.to_string()));
    }));
    let place = |call: fn()| {
        assert!(catch_unwind(call).is_err());
        PLACE.with(RefCell::take)
    };
    let range = || {
        let _ = Stuck.generate_range(5..5_u8);
    };
    assert_eq!(place(range), file!());
    assert_eq!(place(|| Stuck.shuffle([1, 2, 3])), file!());
}

#[test]
fn others() {
    let odd = "ChaCha has an even number of rounds, and not 7";
    assert_eq!(text(|| ChaCha::<7>::new_key([0; 32], [0; 8]).rand()), odd);
    assert_eq!(text(|| chacha_block::<7>([0; 16])), odd);
    let read = text(|| nanorand::BufferedRng::new(Stuck).read_to_string(&mut String::new()));
    assert_eq!(read, "a generator cannot be read into a string");
    for backup in [nanorand::entropy::backup, nanorand::entropy::backup_entropy] {
        assert_eq!(
            text(|| backup(&mut [0; 4])),
            "no source of random bytes is available"
        );
    }
}
