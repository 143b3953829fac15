//! Bytes from the system without the features `std` and `getrandom`. A `getrandom` of the test
//! replaces the system's.
#![cfg(all(target_os = "linux", not(any(feature = "std", feature = "getrandom"))))]

use nanorand::entropy;
use std::cell::Cell;

thread_local! {
    /// How many requests will still be filled, and what the one after them returns.
    static NEXT: Cell<(usize, isize)> = const { Cell::new((usize::MAX, 0)) };
    /// Whether each request was for at most 256 bytes, and without flags.
    static PLAIN: Cell<bool> = const { Cell::new(true) };
    /// The value of each byte.
    static BYTE: Cell<u8> = const { Cell::new(1) };
}

/// Fills the buffer with equal bytes. Requests after those to be filled write nothing. std calls
/// this function as well, in other threads.
#[no_mangle]
unsafe extern "C" fn getrandom(bytes: *mut u8, size: usize, flags: u32) -> isize {
    PLAIN.with(|plain| plain.set(plain.get() && size <= 256 && flags == 0));
    let (left, answer) = NEXT.with(Cell::get);
    NEXT.with(|next| next.set((left.saturating_sub(1), answer)));
    if left == 0 {
        return answer;
    }
    bytes.write_bytes(BYTE.with(Cell::get), size);
    size.try_into().unwrap_or(-1)
}

/// Whether `length` bytes are delivered, if `requests` requests are filled and the next one returns
/// `answer`.
fn is_filled(length: usize, requests: usize, answer: isize) -> bool {
    NEXT.with(|next| next.set((requests, answer)));
    let mut bytes = vec![0; length];
    let filled = entropy::system(&mut bytes);
    assert!(PLAIN.with(Cell::get));
    let given = BYTE.with(Cell::get);
    assert!(
        !filled || bytes.iter().all(|byte| *byte == given),
        "{length}"
    );
    filled
}

/// An error, or fewer bytes than requested, at any request, is a failure.
#[test]
fn requests_that_fail() {
    for length in [1, 8, 16, 40, 255, 256, 257, 600, 5000] {
        let requests = (length + 255) / 256;
        assert!(is_filled(length, requests, -1), "{length}");
        for filled in 0..requests {
            let last = isize::try_from((length - 256 * filled).min(256)).expect("a small size");
            for answer in [-1, 0, 1, last - 1] {
                if answer < last {
                    assert!(!is_filled(length, filled, answer), "{length} {answer}");
                }
            }
        }
    }
}

/// All bytes of the system are accepted as a seed, even if they are all equal or all zeros.
#[test]
#[cfg(all(feature = "wyrand", feature = "pcg64", feature = "chacha"))]
fn bytes_of_every_value() {
    use nanorand::{ChaCha8, Pcg64, Rng, WyRand};
    for byte in 0..=u8::MAX {
        BYTE.with(|given| given.set(byte));
        assert!(is_filled(600, usize::MAX, 0), "{byte}");
        let seeded = WyRand::new_seed(u64::from_le_bytes([byte; 8])).rand();
        assert_eq!(WyRand::new().rand(), seeded, "{byte}");
        let seeded = Pcg64::new_seed(u128::from_le_bytes([byte; 16])).rand();
        assert_eq!(Pcg64::new().rand(), seeded, "{byte}");
        let seeded = ChaCha8::new_key([byte; 32], [byte; 8]).rand();
        assert_eq!(ChaCha8::new().rand(), seeded, "{byte}");
    }
}
