//! What the table of answers (the package `nanorand-answers`) does not cover: a user's own
//! generators and types, rejected words, floats, characters, buffers, replays, weights, entropy and
//! texts. The expected values are from the documented rules, not from this crate.
//!
//! A word is a random number of n bits, n being the width of the draw. A request is one read of
//! bytes from a generator.

#[path = "../common/mod.rs"]
mod common;

#[cfg(feature = "std")]
mod any;
#[cfg(feature = "std")]
mod any_calls;
#[cfg(feature = "std")]
mod buffers;
mod cases;
mod chacha;
mod characters;
mod choices;
mod cycles;
mod draws;
mod durations;
#[cfg(feature = "std")]
mod entropy;
mod equality;
mod floats;
mod methods;
mod own_types;
#[cfg(feature = "std")]
mod panics;
mod parts;
mod ranges;
mod replays;
#[cfg(feature = "std")]
mod requests;
mod reservoirs;
mod samples;
mod seeds;
mod shuffles;
mod stored;
#[cfg(feature = "std")]
mod sweeps;
#[cfg(feature = "std")]
mod texts;
mod values;
mod weights;
mod wrappers;
