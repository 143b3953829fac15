//! Seeds from a `getrandom` that replaces the system's: what it is asked for, and what the library
//! does with its answers.
#![cfg(all(target_os = "linux", feature = "std"))]
#![warn(unsafe_op_in_unsafe_fn)] // for cargo 1.63, which reads no lints from Cargo.toml

use nanorand_proved::rand::ChaChaGroups;
use nanorand_proved::system;
use nanorand_proved::{BufferedRng, ChaCha20, ChaCha20Stream, ChaCha8, Pcg64, WyRand};
use std::cell::{Cell, RefCell};
use std::collections::VecDeque;
use std::os::raw::{c_int, c_uint, c_void};
use std::panic::{catch_unwind, set_hook, UnwindSafe};

const EINTR: c_int = 4;

extern "C" {
    fn __errno_location() -> *mut c_int;
}

thread_local! {
    /// The next answers: a number of bytes, or an error number. After them each request is filled.
    static ANSWERS: RefCell<VecDeque<Result<usize, c_int>>> = RefCell::default();
    /// The size and the flags of each request.
    static ASKED: RefCell<Vec<(usize, c_uint)>> = RefCell::default();
    /// The next byte, and the difference of the byte after it.
    static BYTES: Cell<(u8, u8)> = const { Cell::new((7, 0)) };
}

/// std calls this function as well, for hash tables. The tests have none.
#[no_mangle]
unsafe extern "C" fn getrandom(bytes: *mut c_void, size: usize, flags: c_uint) -> isize {
    ASKED.with(|asked| asked.borrow_mut().push((size, flags)));
    let answer = ANSWERS.with(|answers| answers.borrow_mut().pop_front());
    match answer.unwrap_or(Ok(size)) {
        Ok(count) => {
            assert!(count <= size);
            let (mut byte, step) = BYTES.with(Cell::get);
            for place in 0..count {
                // SAFETY: the caller guarantees that `size` bytes may be written, and `place` is below
                // `count`, which is at most `size`.
                unsafe { bytes.cast::<u8>().add(place).write(byte) };
                byte = byte.wrapping_add(step);
            }
            BYTES.with(|next| next.set((byte, step)));
            count.try_into().unwrap_or(-1)
        }
        Err(number) => {
            // SAFETY: the C library returns the address of this thread's `errno`, which may be
            // written at any time.
            unsafe { *__errno_location() = number };
            -1
        }
    }
}

/// The outcome of a call if the system gives these answers, and the requests.
fn answered<T>(
    answers: &[Result<usize, c_int>],
    call: impl FnOnce() -> T,
) -> (T, Vec<(usize, c_uint)>) {
    ANSWERS.with(|left| left.replace(answers.iter().copied().collect()));
    ASKED.with(|asked| asked.borrow_mut().clear());
    let outcome = call();
    (outcome, ASKED.with(RefCell::take))
}

/// No flag is set, so the call waits until the system has gathered enough entropy.
#[test]
fn seeds_are_asked_for_without_flags() {
    let (rng, asked) = answered(&[], WyRand::from_entropy);
    assert_eq!(
        (rng.ok(), asked),
        (Some(WyRand::from_seed([7; 8])), vec![(8, 0)])
    );
    let (rng, asked) = answered(&[], Pcg64::from_entropy);
    assert_eq!(
        (rng.ok(), asked),
        (Some(Pcg64::from_seed([7; 16])), vec![(16, 0)])
    );
    let (rng, asked) = answered(&[], ChaCha20::from_entropy);
    assert_eq!(
        (rng.ok(), asked),
        (Some(ChaCha20::from_seed([7; 40])), vec![(40, 0)])
    );
    let (rng, asked) = answered(&[Ok(3), Err(EINTR), Ok(4)], WyRand::from_entropy);
    assert_eq!(rng.ok(), Some(WyRand::from_seed([7; 8])));
    assert_eq!(asked, [(8, 0), (5, 0), (5, 0), (1, 0)]);
}

/// Any error but an interruption is returned, at whichever request it occurs.
#[test]
fn errors_of_the_system_are_returned() {
    for number in (1..134).filter(|number| *number != EINTR) {
        for before in [&[][..], &[Ok(5)], &[Err(EINTR), Ok(1)]] {
            let answers = [before, &[Err(number)]].concat();
            let (outcome, asked) = answered(&answers, WyRand::from_entropy);
            let error = outcome.expect_err("a failure");
            assert_eq!(error.raw_os_error(), Some(number));
            assert_eq!(asked.len(), answers.len());
        }
    }
}

/// A generator is made from the system's bytes in their order, whatever they are, even if all are
/// zeros or ones.
#[test]
fn seeds_are_the_bytes_of_the_system() {
    for (first, step) in [(0_u8, 0), (255, 0), (7, 0), (1, 1), (200, 77)] {
        let mut seed = [0; 40];
        let mut byte = first;
        for place in &mut seed {
            *place = byte;
            byte = byte.wrapping_add(step);
        }
        let made = |call: &mut dyn FnMut()| {
            BYTES.with(|next| next.set((first, step)));
            call();
            BYTES.with(|next| next.set((7, 0)));
        };
        let (word, wide) = (seed[..8].try_into(), seed[..16].try_into());
        let wyrand = WyRand::from_seed(word.expect("8 bytes"));
        let pcg64 = Pcg64::from_seed(wide.expect("16 bytes"));
        let (chacha, stream) = (ChaCha20::from_seed(seed), ChaCha20Stream::from_seed(seed));
        let groups = ChaChaGroups::new_key(chacha.key(), chacha.nonce());
        made(&mut || assert_eq!(WyRand::from_entropy().ok().as_ref(), Some(&wyrand)));
        made(&mut || assert_eq!(WyRand::default(), wyrand));
        made(&mut || assert_eq!(Pcg64::from_entropy().ok().as_ref(), Some(&pcg64)));
        made(&mut || assert_eq!(Pcg64::default(), pcg64));
        made(&mut || assert_eq!(ChaCha20::from_entropy().ok().as_ref(), Some(&chacha)));
        made(&mut || assert_eq!(ChaCha20::default(), chacha));
        made(&mut || assert_eq!(ChaCha8::default(), ChaCha8::from_seed(seed)));
        made(&mut || assert_eq!(ChaChaGroups::<20>::default(), groups));
        made(&mut || assert_eq!(ChaCha20Stream::from_entropy().ok().as_ref(), Some(&stream)));
        made(&mut || assert_eq!(ChaCha20Stream::default(), stream));
        made(&mut || assert_eq!(BufferedRng::<WyRand, 8>::default().inner(), &wyrand));
    }
}

/// If there is no seed, `Default` panics at the place of the call.
#[test]
#[allow(clippy::redundant_closure)] // a function in place of a closure is called by std
fn defaults_panic_at_their_callers() {
    thread_local!(static PLACE: RefCell<String> = const { RefCell::new(String::new()) });
    fn check<T>(call: impl FnOnce() -> T + UnwindSafe) {
        let (outcome, _) = answered(&[Err(5)], || catch_unwind(call));
        assert!(outcome.is_err());
        PLACE.with(|place| assert_eq!(place.take(), file!()));
    }
    set_hook(Box::new(|panic| {
        let file = panic.location().map_or("", |place| place.file());
        PLACE.with(|place| place.replace(file.to_string()));
    }));
    check(|| WyRand::default());
    check(|| Pcg64::default());
    check(|| ChaCha20::default());
    check(|| ChaChaGroups::<20>::default());
    check(|| ChaCha20Stream::default());
}

/// A slice of any size is filled completely, by one request if the system answers it completely.
#[test]
fn slices_of_any_size_are_filled() {
    for size in [0, 1, 255, 256, 257, 4097, 65_537, 1 << 20] {
        let mut bytes = vec![0; size];
        let (outcome, asked) = answered(&[], || system::fill(&mut bytes));
        assert!(outcome.is_ok(), "{size}");
        assert!(bytes.iter().all(|byte| *byte == 7), "{size}");
        assert!(asked.into_iter().eq((size > 0).then_some((size, 0))));
    }
}
