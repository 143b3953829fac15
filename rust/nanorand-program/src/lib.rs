//! What a program gets from the operating system: its arguments, and standard streams whose
//! failures are errors.
//!
//! std treats a standard stream that is closed, or open in the other direction only, as one that is
//! empty or accepts everything. A program would then end with success although its output was lost.

#[cfg(unix)]
mod at_start;
#[cfg(unix)]
mod stream;

#[cfg(unix)]
pub use stream::{input, output, Stream};

use std::env;
use std::ffi::OsString;

#[cfg(doctest)]
#[doc = include_str!("../README.md")]
struct Readme;

/// Returns the arguments after the name of the program, or `None` if one of them is not UTF-8.
#[must_use]
pub fn arguments() -> Option<Vec<String>> {
    let texts = env::args_os().skip(1).map(OsString::into_string);
    texts.collect::<Result<_, _>>().ok()
}

/// Returns standard input.
#[cfg(not(unix))]
#[must_use]
pub fn input() -> std::io::Stdin {
    std::io::stdin()
}

/// Returns standard output.
#[cfg(not(unix))]
#[must_use]
pub fn output() -> std::io::Stdout {
    std::io::stdout()
}
