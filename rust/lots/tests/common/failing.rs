//! A `read` and a `write` that replace the system's, and fail with any error number.
#![warn(unsafe_op_in_unsafe_fn)] // for cargo 1.63, which reads no lints from Cargo.toml

use std::cell::RefCell;
use std::collections::VecDeque;
use std::os::raw::{c_int, c_void};

/// The bytes that a read returns, or as many as a write takes, or an error number.
pub type Answer<'a> = Result<&'a [u8], c_int>;

/// The address of bytes, and their number.
#[repr(C)]
struct Part(*mut c_void, usize);

extern "C" {
    fn __errno_location() -> *mut c_int;
    fn readv(descriptor: c_int, parts: *const Part, count: c_int) -> isize;
    fn writev(descriptor: c_int, parts: *const Part, count: c_int) -> isize;
}

thread_local! {
    /// The next answers in this thread. After them the system's own calls are made.
    static ANSWERS: RefCell<VecDeque<Result<Vec<u8>, c_int>>> = RefCell::default();
}

/// The outcome of a call whose reads and writes get these answers.
pub fn answered<T>(answers: &[Answer], call: impl FnOnce() -> T) -> T {
    let owned = answers.iter().map(|answer| answer.map(<[u8]>::to_vec));
    ANSWERS.with(|left| left.replace(owned.collect()));
    let outcome = call();
    ANSWERS.with(RefCell::take);
    outcome
}

fn next_answer() -> Option<Result<Vec<u8>, c_int>> {
    ANSWERS.with(|answers| answers.borrow_mut().pop_front())
}

fn failed(number: c_int) -> isize {
    // SAFETY: the C library returns the address of this thread's `errno`, which may be written at
    // any time.
    unsafe { *__errno_location() = number };
    -1
}

#[no_mangle]
unsafe extern "C" fn read(descriptor: c_int, bytes: *mut c_void, count: usize) -> isize {
    match next_answer() {
        // SAFETY: the caller of `read` guarantees that these bytes may be written.
        None => unsafe { readv(descriptor, &Part(bytes, count), 1) },
        Some(Err(number)) => failed(number),
        Some(Ok(given)) => {
            assert!(given.len() <= count);
            // SAFETY: the caller guarantees that `count` bytes may be written, which are enough, and
            // `given` is a vector of its own.
            unsafe { bytes.cast::<u8>().copy_from(given.as_ptr(), given.len()) };
            given.len().try_into().unwrap_or(-1)
        }
    }
}

#[no_mangle]
unsafe extern "C" fn write(descriptor: c_int, bytes: *mut c_void, count: usize) -> isize {
    match next_answer() {
        // SAFETY: the caller of `write` guarantees that these bytes may be read.
        None => unsafe { writev(descriptor, &Part(bytes, count), 1) },
        Some(Err(number)) => failed(number),
        Some(Ok(taken)) => taken.len().min(count).try_into().unwrap_or(-1),
    }
}
