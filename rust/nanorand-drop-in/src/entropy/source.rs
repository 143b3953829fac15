//! The one function that asks the operating system. The features and the target determine which one
//! is compiled.

#[cfg(feature = "getrandom")]
pub(crate) fn fill(out: &mut [u8]) -> bool {
    getrandom::getrandom(out).is_ok()
}

#[cfg(all(feature = "std", not(feature = "getrandom")))]
pub(crate) fn fill(out: &mut [u8]) -> bool {
    nanorand_proved::system::fill(out).is_ok()
}

// Without std, `nanorand_proved` cannot ask the system, while 0.7.0 calls libc. This is the only
// unsafe code of the crate.
#[cfg(all(
    not(any(feature = "std", feature = "getrandom")),
    any(target_os = "linux", target_os = "android")
))]
#[allow(unsafe_code)]
pub(crate) fn fill(out: &mut [u8]) -> bool {
    extern "C" {
        fn getrandom(buffer: *mut u8, length: usize, flags: u32) -> isize;
    }
    // The system fills up to 256 bytes completely, or returns an error.
    out.chunks_mut(256).all(|part| {
        // SAFETY: `part` is writable for its whole length, and the call writes no more than that.
        let given = unsafe { getrandom(part.as_mut_ptr(), part.len(), 0) };
        usize::try_from(given) == Ok(part.len())
    })
}

#[cfg(not(any(
    feature = "std",
    feature = "getrandom",
    target_os = "linux",
    target_os = "android"
)))]
pub(crate) fn fill(_: &mut [u8]) -> bool {
    false
}
