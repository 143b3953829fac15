//! A public draw that anyone can repeat: a seed and a list of entrants determine a selection and
//! its order.
//!
//! ```
//! let mut entrants = ["Ann", "Ben", "Cid", "Dot", "Eve"];
//! lots::draw("a public seed", &mut entrants, 3)?;
//! assert_eq!(entrants[..3], ["Ben", "Ann", "Dot"]);
//! # Ok::<(), lots::LotsError>(())
//! ```
//!
//! `record::record` makes the record of a draw, a text with which others repeat the draw.
//! `check::check` accepts exactly the records that `record::record` makes from seeds that are not
//! empty. `announcement::announcement` makes the announcement of a draw, which is published before
//! the seed is known, and `announcement::is_announcement` says whether a text is the announcement
//! of a given draw.
//!
//! The functions have the bodies of the crates `lots_core` and `lots_record` in Rattle, whose
//! contracts are proved. `sha256`, `hex`, `reading` and `growing` are hand-written. The program
//! `lots` reads its arguments and files, and calls the functions of `command`, `run` and `program`.
//! These three modules are public for the tests of the program, and may change in any release.
//!
//! The feature `std`, on by default, adds the lists of entrants, the records and the program.
//! Without it the crate is `no_std`, and allocates nothing.
#![cfg_attr(not(feature = "std"), no_std)]
#![forbid(unsafe_code)]

#[cfg(feature = "std")]
pub mod announcement;
#[cfg(feature = "std")]
pub mod arguments;
#[cfg(feature = "std")]
pub mod check;
#[cfg(feature = "std")]
mod check_error;
#[cfg(feature = "std")]
mod claims;
#[cfg(feature = "std")]
pub mod command;
mod draws;
mod entrants;
mod error;
#[cfg(feature = "std")]
mod growing;
#[cfg(feature = "std")]
mod hex;
#[cfg(feature = "std")]
pub mod program;
#[cfg(feature = "std")]
mod quoted;
#[cfg(feature = "std")]
mod reading;
#[cfg(feature = "std")]
pub mod record;
#[cfg(feature = "std")]
pub mod run;
#[cfg(feature = "std")]
mod selection;
pub mod sha256;
#[cfg(feature = "std")]
mod text;

#[cfg(doctest)]
#[doc = include_str!("../README.md")]
struct Readme;

#[cfg(feature = "std")]
pub use check_error::CheckError;
pub use draws::{draw, draw_places};
pub use entrants::count_entrants;
#[cfg(feature = "std")]
pub use entrants::entrants_of;
#[cfg(feature = "std")]
use entrants::line_end;
pub use error::LotsError;
#[cfg(feature = "std")]
pub use selection::draw_lines;
