//! Random bytes from the operating system.
//!
//! Depending on the target, [`system`] is `linux::entropy`, `darwin::entropy`, `windows::entropy`
//! or `windows_uwp::entropy`, which return true if all bytes were filled. On other targets, and
//! with the feature `getrandom`, it returns nothing, and panics if there are no random bytes.

mod source;

macro_rules! systems {
    ($($system:ident, $text:literal, $target:meta;)+) => { $(
        #[doc = $text]
        #[cfg(all(not(feature = "getrandom"), $target))]
        pub mod $system {
            /// Fills the slice with random bytes from the operating system, and returns whether
            /// this succeeded.
            pub fn entropy(out: &mut [u8]) -> bool {
                super::source::fill(out)
            }
        }

        #[cfg(all(not(feature = "getrandom"), $target))]
        pub use $system::entropy as system;
    )+ };
}

systems! {
    linux, "Linux and Android.", any(target_os = "linux", target_os = "android");
    darwin, "Apple's systems.", target_vendor = "apple";
    windows, "Windows.", all(windows, not(target_vendor = "uwp"));
    windows_uwp, "Windows' universal platform.", all(windows, target_vendor = "uwp");
}

/// Fills the slice with random bytes from the operating system.
///
/// # Panics
///
/// Panics if the system provides none.
#[cfg(any(
    feature = "getrandom",
    not(any(
        target_os = "linux",
        target_os = "android",
        target_vendor = "apple",
        windows
    ))
))]
pub fn system(out: &mut [u8]) {
    if !source::fill(out) {
        backup(out);
    }
}

/// Stands in for a random-number instruction of the processor, which is never executed. Always
/// returns `None` and leaves the slice unchanged.
pub fn rdseed(out: &mut [u8]) -> Option<usize> {
    nanorand_proved::entropy::rdseed(out)
}

/// Stands in for an entropy source of last resort. There is none.
///
/// # Panics
///
/// Always panics.
pub fn backup(_: &mut [u8]) {
    panic!("no source of random bytes is available");
}

/// Calls [`backup`]. `nanorand` 0.7.0 has this name without the feature `std`.
///
/// # Panics
///
/// Always panics.
pub fn backup_entropy(out: &mut [u8]) {
    backup(out);
}

// Returns the seed of a generator, and panics if the system provides none. nanorand 0.7.0 then uses
// a seed of zeros, which can be guessed.
#[cfg(any(feature = "wyrand", feature = "pcg64", feature = "chacha"))]
pub(crate) fn system_seed<const SIZE: usize>() -> [u8; SIZE] {
    seed_from(source::fill)
}

#[cfg(any(feature = "wyrand", feature = "pcg64", feature = "chacha"))]
fn seed_from<const SIZE: usize>(fill: fn(&mut [u8]) -> bool) -> [u8; SIZE] {
    let mut seed = [0; SIZE];
    if !fill(&mut seed) {
        backup(&mut seed);
    }
    seed
}

#[cfg(all(test, feature = "wyrand"))]
mod tests {
    extern crate std;

    use super::seed_from;
    use std::panic::catch_unwind;
    use std::sync::atomic::{AtomicUsize, Ordering};

    #[test]
    #[should_panic(expected = "no source of random bytes is available")]
    fn systems_without_a_source() {
        let _: [u8; 8] = seed_from(|_| false);
    }

    /// The result is a panic, whatever part of the seed the source had written.
    #[test]
    fn systems_that_fail_in_the_middle() {
        static WRITTEN: AtomicUsize = AtomicUsize::new(0);
        for written in 0..=8 {
            WRITTEN.store(written, Ordering::Relaxed);
            let made = catch_unwind(|| {
                seed_from::<8>(|seed| {
                    seed[..WRITTEN.load(Ordering::Relaxed)].fill(7);
                    false
                })
            });
            assert!(made.is_err(), "{written}");
        }
    }
}
