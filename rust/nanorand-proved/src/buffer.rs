//! A generator that buffers unused bytes, so that its requests join into one unbroken stream.

use crate::rand::{fill_by_blocks, Rng, SeedableRng};
#[cfg(feature = "std")]
use std::io;
#[cfg(feature = "std")]
use std::io::Read;
#[cfg(feature = "std")]
use std::string::String;
#[cfg(feature = "std")]
use std::vec::Vec;

/// A generator that delivers the blocks of another generator as one stream of bytes, and buffers
/// the bytes that a request leaves over.
///
/// A request is one read of n bytes. It takes the buffered bytes first, and then draws as few
/// blocks as cover the rest, by `rand` of the inner generator. `OUTPUT` is the number of bytes of a
/// block. The bytes of the last block that are not delivered, always fewer than a block, stay
/// buffered for the next request. The inner generator may be any generator, including another
/// `BufferedRng`.
///
/// # Examples
///
/// ```
/// use nanorand_proved::{BufferedRng, Rng, WyRand};
///
/// let mut rng = BufferedRng::new(WyRand::seed_from_u64(42));
/// let halves: [u32; 2] = rng.generate(); // one block of eight bytes
/// let [low, high] = halves.map(u64::from);
/// assert_eq!(low + (high << 32), WyRand::seed_from_u64(42).generate());
/// ```
pub struct BufferedRng<G, const OUTPUT: usize = 8> {
    inner: G,
    block: [u8; OUTPUT],
    cursor: usize,
}

/// The error of `read_to_string`: the stream never ends and is not text.
#[derive(Clone, Copy, Debug, PartialEq, Eq)]
pub struct TextRefused;

impl core::fmt::Display for TextRefused {
    fn fmt(&self, f: &mut core::fmt::Formatter<'_>) -> core::fmt::Result {
        f.write_str("a generator cannot be read into a string")
    }
}

#[cfg(feature = "std")]
impl std::error::Error for TextRefused {}

/// The error of [`BufferedRng::with_rest`]: the bytes would fill a block or more.
#[derive(Clone, Copy, Debug, PartialEq, Eq)]
pub struct RestTooLong;

impl core::fmt::Display for RestTooLong {
    fn fmt(&self, f: &mut core::fmt::Formatter<'_>) -> core::fmt::Result {
        f.write_str("a buffer holds less than a block")
    }
}

#[cfg(feature = "std")]
impl std::error::Error for RestTooLong {}

impl<G: Rng<OUTPUT>, const OUTPUT: usize> BufferedRng<G, OUTPUT> {
    /// Wraps a generator. The buffer is empty, and nothing is drawn.
    #[inline]
    #[must_use]
    pub const fn new(rng: G) -> Self {
        BufferedRng {
            inner: rng,
            block: [0; OUTPUT],
            cursor: OUTPUT,
        }
    }

    /// Wraps a generator and buffers the bytes of `rest`, which are delivered first, in their
    /// order. Nothing is drawn.
    ///
    /// # Errors
    ///
    /// Returns `RestTooLong` if `rest` has `OUTPUT` bytes or more. The generator is dropped then.
    pub fn with_rest(rng: G, rest: &[u8]) -> Result<Self, RestTooLong> {
        if OUTPUT <= rest.len() {
            return Err(RestTooLong);
        }
        let cursor = OUTPUT - rest.len();
        let mut block = [0; OUTPUT];
        let bytes = &mut block[..];
        bytes[cursor..].copy_from_slice(rest);
        Ok(BufferedRng {
            inner: rng,
            block,
            cursor,
        })
    }

    /// Returns the buffered bytes in the order in which they will be delivered. They are always
    /// fewer than a block.
    ///
    /// To store a buffered generator, store these bytes and the state of `inner`. `with_rest`
    /// restores an equal one from the two.
    #[inline]
    #[must_use]
    pub fn rest(&self) -> &[u8] {
        let bytes = &self.block[..];
        &bytes[self.cursor..]
    }

    /// Returns the inner generator, in the state that the blocks drawn so far have left.
    #[inline]
    #[must_use]
    pub fn inner(&self) -> &G {
        &self.inner
    }

    /// Returns the inner generator and drops the buffered bytes.
    #[inline]
    #[must_use]
    pub fn into_inner(self) -> G {
        self.inner
    }

    /// Returns the number of buffered bytes, which is always less than a block.
    #[inline]
    #[must_use]
    pub fn buffered(&self) -> usize {
        OUTPUT - self.cursor
    }

    /// Appends only the buffered bytes to `out`, empties the buffer, and returns how many bytes
    /// were appended.
    ///
    /// Nothing is drawn, since the stream has no end. If the buffer is empty, the call allocates
    /// nothing, leaves the capacity of the vector as it is, and returns 0.
    ///
    /// # Errors
    ///
    /// Returns an error only if the vector has too little room and cannot be grown. The items and
    /// the capacity of the vector, and the buffer, are unchanged then.
    #[cfg(feature = "std")]
    pub fn read_to_end(
        &mut self,
        out: &mut Vec<u8>,
    ) -> Result<usize, std::collections::TryReserveError> {
        let count = OUTPUT - self.cursor;
        if count == 0 {
            return Ok(0);
        }
        let bytes = &self.block[..];
        out.try_reserve(count)?;
        // The vector has room now, so this cannot fail.
        out.extend_from_slice(&bytes[self.cursor..]);
        self.cursor = OUTPUT;
        Ok(count)
    }

    /// Returns an error, and changes neither the string nor the generator.
    ///
    /// # Errors
    ///
    /// Always returns `TextRefused`.
    #[cfg(feature = "std")]
    pub fn read_to_string(&mut self, out: &mut String) -> Result<usize, TextRefused> {
        let _ = out;
        Err(TextRefused)
    }
}

/// The clone has the same buffered bytes, and the generator that `clone` of the inner generator
/// returns. `BufferedRng` itself allocates nothing.
impl<G: Clone, const OUTPUT: usize> Clone for BufferedRng<G, OUTPUT> {
    fn clone(&self) -> Self {
        BufferedRng {
            inner: self.inner.clone(),
            block: self.block,
            cursor: self.cursor,
        }
    }
}

/// Two buffered generators are equal if their buffered bytes are equal and their inner generators
/// are equal. Bytes that were already delivered are not compared.
impl<G: Rng<OUTPUT> + PartialEq, const OUTPUT: usize> PartialEq for BufferedRng<G, OUTPUT> {
    fn eq(&self, other: &Self) -> bool {
        self.rest() == other.rest() && self.inner == other.inner
    }
}

impl<G: Rng<OUTPUT> + Eq, const OUTPUT: usize> Eq for BufferedRng<G, OUTPUT> {}

impl<G: Rng<OUTPUT>, const OUTPUT: usize> Rng<OUTPUT> for BufferedRng<G, OUTPUT> {
    fn rand(&mut self) -> [u8; OUTPUT] {
        let mut block = [0; OUTPUT];
        deliver(
            &mut self.inner,
            &mut self.block,
            &mut self.cursor,
            &mut block,
        );
        block
    }

    #[inline(always)]
    fn fill_bytes(&mut self, buffer: &mut [u8]) {
        deliver(&mut self.inner, &mut self.block, &mut self.cursor, buffer);
    }
}

impl<G, const SEED_SIZE: usize, const OUTPUT: usize> SeedableRng<SEED_SIZE, OUTPUT>
    for BufferedRng<G, OUTPUT>
where
    G: SeedableRng<SEED_SIZE, OUTPUT>,
{
    /// Reseeds the inner generator. The buffered bytes stay, and are delivered before the new
    /// stream.
    fn reseed(&mut self, seed: [u8; SEED_SIZE]) {
        self.inner.reseed(seed);
    }
}

/// Wraps the default of the inner generator, by `BufferedRng::new`.
impl<G: Rng<OUTPUT> + Default, const OUTPUT: usize> Default for BufferedRng<G, OUTPUT> {
    #[track_caller]
    fn default() -> Self {
        BufferedRng::new(G::default())
    }
}

/// Fills the whole slice as `fill_bytes` does, and returns its length. The stream never ends.
#[cfg(feature = "std")]
impl<G: Rng<OUTPUT>, const OUTPUT: usize> Read for BufferedRng<G, OUTPUT> {
    fn read(&mut self, buf: &mut [u8]) -> io::Result<usize> {
        deliver(&mut self.inner, &mut self.block, &mut self.cursor, buf);
        Ok(buf.len())
    }

    /// Appends only the buffered bytes, as [`BufferedRng::read_to_end`] does, since the stream
    /// never ends.
    fn read_to_end(&mut self, buf: &mut Vec<u8>) -> io::Result<usize> {
        // This error has a kind and no message: a message would have to be allocated, and memory
        // has just run out.
        BufferedRng::read_to_end(self, buf).map_err(|_| io::ErrorKind::OutOfMemory.into())
    }

    /// Always returns an error, since the stream never ends and is not text.
    fn read_to_string(&mut self, buf: &mut String) -> io::Result<usize> {
        BufferedRng::read_to_string(self, buf)
            .map_err(|error| io::Error::new(io::ErrorKind::Other, error))
    }
}

// Delivers the buffered bytes first, then further blocks, and buffers what the last block leaves
// over.
#[inline(always)]
fn deliver<G: Rng<OUTPUT>, const OUTPUT: usize>(
    inner: &mut G,
    block: &mut [u8; OUTPUT],
    cursor: &mut usize,
    out: &mut [u8],
) {
    let start = *cursor;
    let bytes = &block[..];
    // Written in this order, the test is a single comparison if the compiler knows the length of
    // `out`.
    if out.len() <= OUTPUT && start <= OUTPUT - out.len() {
        let end = start + out.len();
        out.copy_from_slice(&bytes[start..end]);
        *cursor = end;
    } else {
        // The cursor is never beyond the block. Stating it here removes a bounds check from each
        // slice below.
        let start = OUTPUT.min(start);
        let kept = OUTPUT - start;
        out[..kept].copy_from_slice(&bytes[start..]);
        // The inner generator may panic. The bytes delivered above must not be delivered again
        // after that.
        *cursor = OUTPUT;
        // The cursor is stored here and not in `deliver_blocks`, so that a loop of draws keeps it
        // in a register.
        *cursor = deliver_blocks(inner, block, &mut out[kept..]);
    }
}

// Does the same as `deliver` with an empty buffer, whatever bytes `block` holds, and returns the
// new cursor.
fn deliver_blocks<G: Rng<OUTPUT>, const OUTPUT: usize>(
    inner: &mut G,
    block: &mut [u8; OUTPUT],
    out: &mut [u8],
) -> usize {
    let last = out.len() % OUTPUT;
    let whole = out.len() - last;
    fill_by_blocks(inner, &mut out[..whole]);
    if last > 0 {
        *block = inner.rand();
        let bytes = &block[..];
        out[whole..].copy_from_slice(&bytes[..last]);
        last
    } else {
        OUTPUT
    }
}
