//! The values that a generator draws.

mod bytes;
pub mod number;
pub mod range;
mod signed;
mod unsigned;
pub mod word;

use crate::rand::Rng;
pub use range::{RandomRange, RangeError};
pub use word::pick_word;

/// A type whose values can be drawn from a generator. Drawing a value cannot return an error.
/// `OUTPUT` is the number of bytes of the generator's blocks.
///
/// A request is one read of n bytes from the generator, and a word is a random integer of N bits,
/// read by one request of N / 8 bytes.
///
/// | Type | Taken from the stream | Value |
/// |---|---|---|
/// | an integer of N bits | one request of N / 8 bytes | little-endian, in two's complement |
/// | `usize`, `isize` | one request of 8 bytes | the low bits of a `u64` or an `i64` |
/// | `bool` | one byte | true if the byte is below 128 |
/// | `f32`, `f64` | as `u32`, `u64` | the top 24 or 53 bits as a fraction in [0, 1) |
/// | `char` | as `u32`, at most 128 times | one of 1,112,064; U+0000 after 128 rejections |
/// | `NonZeroU8`, .. | as the integer, at most 128 times | the first nonzero; 1 after 128 zeros |
/// | `Duration` | as `u128`, at most 128 times | any duration; zero after 128 rejections |
/// | `Option<T>` | a `bool`, and then a `T` if it is true | `Some` of the `T`, or `None` |
/// | `Wrapping<T>` | as `T` | the `T` |
/// | `[u8; N]` | one request of N bytes | the bytes |
/// | another array, a tuple | as its items | the items, drawn in order |
#[cfg_attr(
    diagnostic_hints,
    diagnostic::on_unimplemented(
        message = "values of the type `{Self}` cannot be drawn",
        note = "for a type of your own, implement `RandomGen`",
        note = "for a collection, draw its items: `rng.generate_iter().take(n).collect()`",
        note = "for one of several values, call `rng.choose(&values)`"
    )
)]
pub trait RandomGen<G: Rng<OUTPUT>, const OUTPUT: usize> {
    /// Draws a value.
    fn random(rng: &mut G) -> Self;

    /// Draws an array of values, one after another. For bytes, it makes one request for all of
    /// them.
    #[doc(hidden)]
    #[inline]
    fn array<const N: usize>(rng: &mut G) -> [Self; N]
    where
        Self: Sized,
    {
        core::array::from_fn(|_| Self::random(rng))
    }
}

/// Takes one byte; the value is true if the byte is below 128.
impl<G: Rng<OUTPUT>, const OUTPUT: usize> RandomGen<G, OUTPUT> for bool {
    #[inline(always)]
    fn random(rng: &mut G) -> bool {
        u8::from_le_bytes(next_bytes(rng)) < 128
    }
}

/// Fills the slice by calling `draw` once for each item, in the order of the items.
///
/// Use it in place of `Rng::fill` for draws that have no type of their own, such as a range or a
/// choice. For an empty slice `draw` is not called.
///
/// # Examples
///
/// ```
/// use nanorand_proved::{values::fill_with, Rng, WyRand};
///
/// let mut points = [(0, false); 3];
/// fill_with(&mut WyRand::seed_from_u64(42), &mut points, |rng: &mut WyRand| {
///     (rng.generate::<i8>(), rng.generate::<bool>())
/// });
/// assert_eq!(points, [(-38, true), (76, true), (-36, false)]);
/// ```
pub fn fill_with<G, T, F: FnMut(&mut G) -> T>(rng: &mut G, target: &mut [T], mut draw: F) {
    for item in target.iter_mut() {
        *item = draw(rng);
    }
}

// Returns the next `SIZE` bytes, by one request.
#[inline(always)]
fn next_bytes<G: Rng<OUTPUT>, const SIZE: usize, const OUTPUT: usize>(rng: &mut G) -> [u8; SIZE] {
    let mut bytes = [0; SIZE];
    rng.fill_bytes(&mut bytes);
    bytes
}
