//! Errors of the system with the feature `std`. A `getrandom` of the test replaces the system's.
#![cfg(all(
    target_os = "linux",
    all(feature = "tls", feature = "pcg64", feature = "chacha"),
    not(feature = "getrandom")
))]

use nanorand::{entropy, tls_rng, BufferedRng, ChaCha, ChaCha20, ChaCha8, Pcg64, WyRand};
use std::cell::RefCell;
use std::collections::VecDeque;
use std::os::raw::{c_int, c_uint};
use std::panic::catch_unwind;

/// A number of bytes, or an error number.
type Answer = Result<usize, c_int>;

const EINTR: c_int = 4;

extern "C" {
    fn __errno_location() -> *mut c_int;
}

thread_local! {
    /// The next answers. After them each request is filled.
    static ANSWERS: RefCell<VecDeque<Answer>> = RefCell::default();
}

/// std calls this function as well, for hash tables. The tests have none.
#[no_mangle]
unsafe extern "C" fn getrandom(bytes: *mut u8, size: usize, _: c_uint) -> isize {
    let answer = ANSWERS.with(|answers| answers.borrow_mut().pop_front());
    match answer.unwrap_or(Ok(size)) {
        Ok(count) => {
            bytes.write_bytes(7, count);
            count.try_into().unwrap_or(-1)
        }
        Err(number) => {
            *__errno_location() = number;
            -1
        }
    }
}

/// The outcome of a call if the system gives these answers.
fn answered<T>(answers: &[Answer], call: impl FnOnce() -> T) -> T {
    ANSWERS.with(|left| left.replace(answers.iter().copied().collect()));
    let outcome = call();
    ANSWERS.with(RefCell::take);
    outcome
}

/// Whether making a generator panics because there is no source of entropy.
fn is_refused<T>(answers: &[Answer], new: fn() -> T) -> bool {
    let made = answered(answers, || catch_unwind(new));
    made.err().map_or(false, |panic| {
        panic.downcast_ref() == Some(&"no source of random bytes is available")
    })
}

fn is_thread_refused(answers: &[Answer]) -> bool {
    let answers = answers.to_vec();
    let thread = std::thread::spawn(move || is_refused(&answers, tls_rng));
    thread.join().expect("no panic")
}

/// Any error but an interruption, and an answer of no bytes, are errors, at the first request and
/// after a part of the bytes.
#[test]
fn errors_of_the_system() {
    let errors = (1..134).filter(|number| *number != EINTR).map(Err);
    for last in errors.chain([Ok(0)]) {
        for before in [&[][..], &[Ok(7)], &[Err(EINTR), Ok(1), Ok(1)]] {
            let answers = [before, &[last]].concat();
            let filled = answered(&answers, || entropy::system(&mut [0; 8]));
            assert!(!filled, "{answers:?}");
            let refused = [
                is_refused(&answers, WyRand::new),
                is_refused(&answers, WyRand::default),
                is_refused(&answers, Pcg64::new),
                is_refused(&answers, Pcg64::default),
                is_refused(&answers, ChaCha8::new),
                is_refused(&answers, ChaCha20::default),
                is_refused(&answers, ChaCha::<6>::new),
                is_refused(&answers, BufferedRng::<WyRand, 8>::default),
                is_thread_refused(&answers),
            ];
            assert_eq!(refused, [true; 9], "{answers:?}");
        }
    }
}

/// Bytes in parts, and interruptions, are not errors.
#[test]
fn parts_and_interruptions() {
    for answers in [
        &[][..],
        &[Ok(7)],
        &[Err(EINTR)],
        &[Ok(3), Err(EINTR), Ok(1)],
    ] {
        let mut bytes = [0; 8];
        assert!(answered(answers, || entropy::system(&mut bytes)));
        assert_eq!(bytes, [7; 8], "{answers:?}");
        let rng = answered(answers, WyRand::new);
        let seeded = WyRand::new_seed(u64::from_le_bytes([7; 8]));
        assert_eq!(format!("{rng:?}"), format!("{seeded:?}"), "{answers:?}");
    }
}
