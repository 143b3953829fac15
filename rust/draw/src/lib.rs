//! The implementation of the program `draw`: it parses the command-line arguments, draws, and
//! writes the resulting text. The program only calls [`run::run`] and [`run::report`], which are
//! public for its tests, and may change in any release.
//!
//! The functions have the bodies of the crate `draw_core` in Rattle, whose contracts are proved.
//! `hex` and `growing` are hand-written.
//!
//! Do not use it to generate keys or passwords: `WyRand` and `Pcg64` are not cryptographically
//! secure.
#![forbid(unsafe_code)]

mod bounds;
mod command;
mod error;
mod generators;
mod growing;
mod hex;
mod kinds;
mod numbers;
mod requests;
pub mod run;
mod text;

pub use error::DrawError;
