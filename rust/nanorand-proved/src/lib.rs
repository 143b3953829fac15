//! Deterministic random generators with unbiased ranges, shuffles, samples, and lists of calls that
//! can be replayed.
//!
//! The same seed always produces the same stream, on every machine. The function bodies are
//! compared with those of `nanorand` in Rattle, which is Rust with contracts that a prover checks.
//! The crate's README says what is proved, what is hand-written and what is trusted. Names and
//! paths are close to those of the Rust crate `nanorand` 0.7.0.
//!
//! **`WyRand` and `Pcg64` are not cryptographically secure.** Never use them to generate a key, a
//! token or a password. `ChaCha` and its streams are not vetted cryptographic generators either:
//! they do not erase keys from memory, do not reseed themselves, and have not been audited. For
//! keys, tokens and passwords, or if there is an adversary, use a vetted generator.
//!
//! `seed_from_u64` makes a generator from any number, even a small one such as 0, 1, 2, ..: it
//! mixes the number. **`new_seed` of `WyRand` and `Pcg64` uses its argument as the state, without
//! mixing it:** generators with neighbouring seeds draw correlated numbers. If you need many
//! generators, use [`Parts`] of one stream, or mixed seeds: numbers that another generator drew, or
//! the first bytes of the SHA-256 of a name.
//!
//! Draw a number:
//!
//! ```
//! use nanorand_proved::{Rng, WyRand};
//!
//! let mut rng = WyRand::new_seed(0x5f89_e29b_8742_9bd2);
//! assert_eq!(rng.generate::<u64>(), 16_646_288_086_500_911_322);
//! let coin: bool = rng.generate();
//! # let _ = coin;
//! ```
//!
//! Draw a number from a range. Each number of an integer range is produced by the same number of
//! words, where a word is a random integer of N bits. An empty range returns an error, and draws
//! nothing. If you know that the range is not empty, use `range`, which returns the number without
//! a `Result`:
//!
//! ```
//! use nanorand_proved::{RangeError, Rng, WyRand};
//!
//! let mut rng = WyRand::seed_from_u64(42);
//! let pips: u8 = rng.generate_range(1..=6)?;
//! assert!((1..=6).contains(&pips));
//! assert_eq!(rng.generate_range(3..3_i64), Err(RangeError::Empty));
//! let (letter, part) = (rng.range('a'..='z'), rng.range(0.0..1.0));
//! # let _: (char, f64) = (letter, part);
//! # Ok::<(), RangeError>(())
//! ```
//!
//! Fill a slice with bytes, or with values of any type:
//!
//! ```
//! use nanorand_proved::{ChaCha20Stream, Rng};
//!
//! let mut rng = ChaCha20Stream::new_key([0; 32], [0; 8]);
//! let mut bytes = [0; 4];
//! rng.fill_bytes(&mut bytes);
//! assert_eq!(bytes, [0x76, 0xb8, 0xe0, 0xad]);
//! let mut words = [0_u32; 10];
//! rng.fill(&mut words);
//! ```
//!
//! Shuffle a slice. The result is a permutation of its items:
//!
//! ```
//! use nanorand_proved::{RangeError, Rng, WyRand};
//!
//! let mut cards = vec!["ace", "king", "queen", "jack"];
//! WyRand::seed_from_u64(7).shuffle(&mut cards)?;
//! cards.sort_unstable();
//! assert_eq!(cards, ["ace", "jack", "king", "queen"]);
//! # Ok::<(), RangeError>(())
//! ```
//!
//! Choices and samples are methods of the generator too, and functions of [`choices`] and
//! [`samples`]:
//!
//! ```
//! use nanorand_proved::{RangeError, Rng, WyRand};
//!
//! let mut rng = WyRand::seed_from_u64(7);
//! let colour = rng.choose(&["red", "green", "blue"])?;
//! let rain = rng.ratio(1, 3)?; // true one time in three
//! let mut places = [0; 3];
//! rng.sample(10, &mut places)?; // three different numbers below 10
//! # let _ = (colour, rain);
//! # Ok::<(), RangeError>(())
//! ```
//!
//! Seed a generator from a number, from bytes, from a reader, or from the operating system. For
//! many tasks, use [`Parts`] of one stream. `jump` moves a generator ahead by any number of draws,
//! and is fast for any distance:
//!
//! ```
//! use nanorand_proved::{ChaCha8, Pcg64, Rng, WyRand};
//!
//! const SEED: u64 = 0x243f_6a88_85a3_08d3;
//! const START: WyRand = WyRand::from_seed(SEED.to_le_bytes());
//! assert_eq!(START, WyRand::new_seed(SEED));
//! # #[cfg(feature = "std")]
//! let mut other = WyRand::from_entropy()?;
//!
//! let mut far = Pcg64::seed_from_u64(1);
//! far.jump(1 << 100);
//!
//! let mut first = ChaCha8::new_key([1; 32], [2; 8]);
//! let mut third = first.clone();
//! third.jump(2);
//! let _ = (first.rand(), first.rand());
//! assert_eq!(first.rand(), third.rand());
//! # Ok::<(), nanorand_proved::entropy::EntropyError>(())
//! ```
//!
//! A ChaCha stream drops no bytes, computes eight blocks at once, and can seek:
//!
//! ```
//! use nanorand_proved::{ChaCha20Stream, Rng};
//!
//! let mut stream = ChaCha20Stream::new_key([0; 32], [0; 8]);
//! assert_eq!(stream.generate::<u32>(), 0xade0_b876);
//! assert_eq!(stream.position(), 4);
//! stream.seek(1);
//! assert_eq!(stream.generate::<u8>(), 0xb8);
//! ```
//!
//! To write your own generator, implement one function:
//!
//! ```
//! use nanorand_proved::{BufferedRng, Rng};
//!
//! struct Counter(u32);
//!
//! impl Rng<4> for Counter {
//!     fn rand(&mut self) -> [u8; 4] {
//!         self.0 = self.0.wrapping_add(1);
//!         self.0.to_le_bytes()
//!     }
//! }
//!
//! let mut rng = BufferedRng::new(Counter(6));
//! assert_eq!(rng.generate::<u64>(), 7 + (8 << 32));
//! ```
//!
//! With [`AnyRng`], a function that takes any generator does not need the block size as a
//! parameter:
//!
//! ```
//! use nanorand_proved::{AnyRng, ChaCha20Stream};
//!
//! fn throw(rng: &mut dyn AnyRng) -> u8 {
//!     rng.range(1..=6)
//! }
//!
//! assert!(throw(&mut ChaCha20Stream::new_key([0; 32], [0; 8])) <= 6);
//! ```
//!
//! `ChaCha` requires an even number of rounds; an odd number does not compile:
//!
//! ```compile_fail
//! let rng = nanorand_proved::ChaCha::<7>::new_key([0; 32], [0; 8]);
//! ```
//!
//! # Features
//!
//! The feature `std` is on by default. It adds readers, vectors, `std::error::Error`, `Default` and
//! seeds from the operating system. It also lets `sample` use a table, which makes its expected
//! time linear. Without `std` the crate is `no_std` and allocates nothing.
//!
//! The crate `nanorand-proved-rand-core` implements the traits of `rand_core` 0.6.
#![no_std]
#![cfg_attr(docsrs, feature(doc_cfg))]
// Also in Cargo.toml, which cargo reads for lints only from 1.74 on.
#![warn(unsafe_op_in_unsafe_fn)]
// The function bodies are those of the proved source. Its proofs show that no cast loses a bit that
// matters.
#![allow(
    clippy::cast_possible_truncation,
    clippy::cast_possible_wrap,
    clippy::cast_sign_loss,
    clippy::inline_always,
    clippy::manual_find,
    clippy::many_single_char_names,
    clippy::match_same_arms,
    clippy::needless_bitwise_bool,
    clippy::needless_range_loop,
    clippy::semicolon_if_nothing_returned,
    clippy::unreadable_literal
)]

#[cfg(feature = "std")]
extern crate std;

#[forbid(unsafe_code)]
pub mod buffer;
#[forbid(unsafe_code)]
pub mod choices;
#[forbid(unsafe_code)]
pub mod crypto;
#[forbid(unsafe_code)]
pub mod entropy;
#[forbid(unsafe_code)]
mod layer;
#[forbid(unsafe_code)]
pub mod parts;
#[forbid(unsafe_code)]
pub mod rand;
#[forbid(unsafe_code)]
pub mod replay;
#[forbid(unsafe_code)]
pub mod samples;
#[forbid(unsafe_code)]
pub mod shuffles;
mod simd;
#[forbid(unsafe_code)]
mod swap;
#[cfg(feature = "std")]
pub mod system;
#[forbid(unsafe_code)]
pub mod values;

#[cfg(doctest)]
#[doc = include_str!("../tests/does_not_compile.md")]
struct DoesNotCompile;

#[cfg(all(doctest, feature = "std"))]
#[doc = include_str!("../README.md")]
struct Readme;

pub use buffer::BufferedRng;
pub use layer::{AnyRange, AnyRng, AnyValue, GenerateIter, Lent};
pub use parts::{Parts, PastPeriod};
pub use rand::{
    chacha_stream, chacha_stream_at, ChaCha12Stream, ChaCha20Stream, ChaCha8Stream, ChaChaGroups,
    ChaChaStream, Keystream,
};
pub use rand::{ChaCha, ChaCha12, ChaCha20, ChaCha8, Pcg64, Rng, SeedableRng, WyRand};
pub use values::{RandomGen, RandomRange, RangeError};
