//! Draws numbers from a seed: `draw GENERATOR SEED MODE COUNT REQUEST...`.
//!
//! - GENERATOR is `wyrand`, `pcg64`, `chacha8`, `chacha12` or `chacha20`.
//! - SEED has two hexadecimal digits for each byte: 8 bytes for `wyrand`, 16 for `pcg64`, 40 for
//!   ChaCha.
//! - MODE is `plain` or `buffered`.
//! - COUNT, at most 1000, is the number of items 0, 1, .. for shuffles.
//! - A REQUEST is a type such as `u8`, a range of a type such as `u8:1..=6`, or `shuffle`.
//!
//! It prints one line for each request, and then a line with the items if there are any. The exit
//! status is 0 on success, 2 if an argument cannot be read, 3 if memory runs out, and 4 if a write
//! failed.
//!
//! Do not use it to generate keys or passwords: WyRand and Pcg64 are not cryptographically secure,
//! and other users may see the arguments of a process.
#![forbid(unsafe_code)]

use draw::run::{report, run};
use draw::DrawError;
use nanorand_program::{arguments, output};
use std::io::stderr;
use std::process::ExitCode;

fn main() -> ExitCode {
    let outcome = match arguments() {
        Some(arguments) => run(&arguments, &mut output()),
        // The program that the kit builds reports arguments that it cannot fetch in the same way.
        None => Err(DrawError::Memory),
    };
    ExitCode::from(report(outcome, &mut stderr()))
}
