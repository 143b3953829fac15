//! Generators behind `dyn`, and generic functions without the block size as a parameter.
//! Hand-written and tested, not proved.

use crate::buffer::BufferedRng;
use crate::rand::{ChaCha, ChaChaGroups, Pcg64, Rng, WyRand};

/// Any generator, whatever the size of its blocks: take it as `&mut dyn AnyRng` or
/// `&mut impl AnyRng`.
///
/// `dyn AnyRng` has all calls of [`Rng`] as methods of its own. For a type parameter `R: AnyRng`,
/// [`rng`](Self::rng) borrows the generator as a `dyn AnyRng`. These calls draw the same values as
/// those of the generator. A `Box<dyn AnyRng>` has all calls too; for a `Box<dyn AnyRng + Send>`
/// call `rng()` first.
///
/// The supertrait `AsDyn` is implemented for every `AnyRng`; you never call or implement it.
///
/// ```
/// use nanorand_proved::{AnyRng, ChaCha20Stream, RangeError, Rng, WyRand};
///
/// fn throw(rng: &mut dyn AnyRng) -> u8 {
///     rng.range(1..=6)
/// }
///
/// struct Table<R> {
///     rng: R,
/// }
///
/// impl<R: AnyRng> Table<R> {
///     fn deal(&mut self, cards: &mut [&str]) -> Result<(), RangeError> {
///         self.rng.rng().shuffle(cards)
///     }
/// }
///
/// let pips = throw(&mut WyRand::seed_from_u64(42));
/// assert_eq!(WyRand::seed_from_u64(42).range(1..=6), pips);
/// let mut table = Table { rng: ChaCha20Stream::new_key([1; 32], [2; 8]) };
/// table.deal(&mut ["ace", "king", "queen"])?;
/// # Ok::<(), RangeError>(())
/// ```
///
/// To implement it for your own generator, write one function:
///
/// ```
/// # use nanorand_proved::{AnyRng, Rng};
/// struct Counter(u64);
///
/// impl Rng<8> for Counter {
///     fn rand(&mut self) -> [u8; 8] {
///         self.0 += 1;
///         self.0.to_le_bytes()
///     }
/// }
///
/// impl AnyRng for Counter {
///     fn bytes(&mut self, buffer: &mut [u8]) {
///         self.fill_bytes(buffer);
///     }
/// }
///
/// let mut generator: Box<dyn AnyRng> = Box::new(Counter(6));
/// assert_eq!(generator.u64(), 7);
/// ```
#[cfg_attr(
    diagnostic_hints,
    diagnostic::on_unimplemented(
        note = "an `Rng` of your own is lent by `rng.as_any()`, or implements `AnyRng` by its `fill_bytes`"
    )
)]
pub trait AnyRng: AsDyn {
    /// Fills the slice with the next bytes, by one request (one read from the generator). An empty
    /// slice draws nothing.
    ///
    /// `io::Read` has a method named `bytes` too. If both traits are imported, call this one on a
    /// `BufferedRng` as `AnyRng::bytes(&mut rng, buffer)`.
    fn bytes(&mut self, buffer: &mut [u8]);

    /// Draws a `u32` from the next four bytes, in little-endian order.
    #[inline]
    fn u32(&mut self) -> u32 {
        let mut bytes = [0; 4];
        self.bytes(&mut bytes);
        u32::from_le_bytes(bytes)
    }

    /// Draws a `u64` from the next eight bytes, in little-endian order.
    #[inline]
    fn u64(&mut self) -> u64 {
        let mut bytes = [0; 8];
        self.bytes(&mut bytes);
        u64::from_le_bytes(bytes)
    }

    /// Borrows the generator as `&mut dyn AnyRng`, which implements [`Rng`].
    #[inline]
    fn rng(&mut self) -> &mut dyn AnyRng {
        self.as_dyn()
    }
}

/// Converts a generator to `dyn AnyRng`, which a provided method of `AnyRng` cannot do, since the
/// size of `Self` is not known there. Every `AnyRng` implements it.
pub trait AsDyn {
    /// Returns the generator as a trait object.
    fn as_dyn(&mut self) -> &mut dyn AnyRng;
}

impl<R: AnyRng> AsDyn for R {
    #[inline]
    fn as_dyn(&mut self) -> &mut dyn AnyRng {
        self
    }
}

/// Each request is passed on to the borrowed generator. A block has 8 bytes, and is one request for
/// 8 bytes.
impl Rng<8> for &mut (dyn AnyRng + '_) {
    #[inline]
    fn rand(&mut self) -> [u8; 8] {
        self.u64().to_le_bytes()
    }

    #[inline]
    fn fill_bytes(&mut self, buffer: &mut [u8]) {
        self.bytes(buffer);
    }
}

/// A borrowed generator as an [`AnyRng`]. [`Rng::as_any`] creates it.
#[derive(Debug)]
pub struct Lent<'a, G, const OUTPUT: usize>(pub(crate) &'a mut G);

impl<G: Rng<OUTPUT>, const OUTPUT: usize> AnyRng for Lent<'_, G, OUTPUT> {
    #[inline]
    fn bytes(&mut self, buffer: &mut [u8]) {
        self.0.fill_bytes(buffer);
    }
}

macro_rules! any_rng {
    ($([$($parameter:tt)*] $generator:ty,)+) => { $(
        impl<$($parameter)*> AnyRng for $generator {
            #[inline]
            fn bytes(&mut self, buffer: &mut [u8]) {
                self.fill_bytes(buffer);
            }
        }
    )+ };
}

any_rng! {
    [] WyRand,
    [] Pcg64,
    [const ROUNDS: u8] ChaCha<ROUNDS>,
    [const ROUNDS: u8] ChaChaGroups<ROUNDS>,
    [G: Rng<OUTPUT>, const OUTPUT: usize] BufferedRng<G, OUTPUT>,
}

macro_rules! any_rng_by_reference {
    ($reference:ty) => {
        /// Each call is passed on to the generator behind the reference.
        impl<R: AnyRng + ?Sized> AnyRng for $reference {
            #[inline]
            fn bytes(&mut self, buffer: &mut [u8]) {
                (**self).bytes(buffer);
            }

            #[inline]
            fn u32(&mut self) -> u32 {
                (**self).u32()
            }

            #[inline]
            fn u64(&mut self) -> u64 {
                (**self).u64()
            }
        }
    };
}

any_rng_by_reference!(&mut R);
#[cfg(feature = "std")]
any_rng_by_reference!(std::boxed::Box<R>);
