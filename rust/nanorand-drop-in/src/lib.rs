//! A drop-in replacement for `nanorand` 0.7.0, on top of the proved generators, ranges and shuffles
//! of [`nanorand_proved`].
//!
//! Use it where a program depends on `nanorand` 0.7: it has the same names, and the same seeds
//! produce the same numbers, except where 0.7.0 does not do what it documents. There this crate
//! does what is documented; its README lists each such function.
//!
//! **`WyRand` and `Pcg64` are not cryptographically secure.** Never use them to generate a key, a
//! token or a password. `ChaCha` has not been audited and is not a vetted cryptographic generator
//! either. For keys, tokens and passwords, or if there is an adversary, use a vetted generator.
//!
//! **A seed of `WyRand` or `Pcg64` is the state itself, and is not mixed.** Generators with
//! neighbouring seeds draw correlated numbers; the documentation of `new_seed` says what to do
//! instead.
//!
//! ```
//! use nanorand::{Rng, WyRand};
//!
//! let mut rng = WyRand::new_seed(42); // or new(): a seed from the system
//! let number: u64 = rng.generate();
//! assert_eq!(number, 12_558_987_674_375_533_620);
//! let pips = rng.generate_range(1_u8..=6);
//! assert!((1..=6).contains(&pips));
//! let mut cards = ["ace", "king", "queen", "jack"];
//! rng.shuffle(&mut cards);
//! ```
//!
//! # Features
//!
//! * `std` (default): the generators take their seeds from the system by `nanorand_proved`, and a
//!   buffer implements [`std::io::Read`].
//! * `alloc` (enabled by `std`): [`BufferedRng`].
//! * `tls` (default): [`tls_rng`]. It requires `std` and `wyrand`.
//! * `wyrand`, `pcg64`, `chacha` (default): the generators.
//! * `getrandom`: the seeds from the system come from the crate `getrandom`.
//! * `zeroize`: the generators implement `Zeroize`, and wipe their state when they are dropped.
//! * `rdseed`: has no effect. The instruction is never executed; [`entropy::rdseed`] always returns
//!   `None`.
#![no_std]
#![cfg_attr(feature = "std", forbid(unsafe_code))]
#![cfg_attr(not(feature = "std"), deny(unsafe_code))]
#![deny(missing_docs)]

#[cfg(feature = "std")]
extern crate std;

mod adapter;
#[cfg(feature = "alloc")]
pub mod buffer;
pub mod crypto {
    //! The functions of the stream cipher ChaCha.

    pub mod chacha;
}
pub mod entropy;
pub mod gen;
pub mod rand;
#[cfg(feature = "tls")]
pub mod tls;

#[cfg(all(doctest, feature = "alloc"))]
#[doc = include_str!("../tests/does_not_compile.md")]
struct DoesNotCompile;

#[cfg(feature = "alloc")]
pub use buffer::BufferedRng;
pub use gen::*;
pub use rand::*;
#[cfg(feature = "tls")]
pub use tls::tls_rng;
