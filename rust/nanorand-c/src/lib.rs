//! The C library that `c/include/nanorand.h` declares, on top of the crates `nanorand-proved` and
//! `lots`.
//!
//! Each exported function does what the proved function of the same name in `crates/nanorand_c`
//! does; the header documents it. The state of a generator is the caller's memory, borrowed for the
//! call. Nothing is allocated.
#![cfg_attr(not(test), no_std)]

mod boundary;
#[macro_use]
mod calls;
mod chacha;
mod lots;
mod pcg64;
mod stream;
mod wyrand;

/// Returns the version: 10000 times the major number, plus 100 times the minor number, plus the
/// patch number.
#[no_mangle]
extern "C" fn nanorand_v1_version() -> u32 {
    10000
}

#[test]
fn the_version_is_that_of_the_package() {
    let version = nanorand_v1_version();
    let parts = [version / 10000, version / 100 % 100, version % 100].map(|part| part.to_string());
    assert_eq!(parts.join("."), env!("CARGO_PKG_VERSION"));
}
