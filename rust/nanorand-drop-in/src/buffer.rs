//! A generator that buffers the bytes that a request leaves over.

use crate::rand::{Rng, SeedableRng};
use nanorand_proved as proved;
use nanorand_proved::{Rng as _, SeedableRng as _};
#[cfg(feature = "std")]
use std::io::{self, Read};

/// A generator that delivers the blocks of another generator as one stream of bytes: see
/// [`nanorand_proved::BufferedRng`].
///
/// ```
/// use nanorand::{BufferedRng, Rng, WyRand};
///
/// let mut rng = BufferedRng::new(WyRand::new_seed(42));
/// rng.fill_bytes(&mut [0; 5]);
/// assert_eq!(rng.buffered(), 3); // of the 8 bytes of a block
/// ```
#[derive(Clone)]
pub struct BufferedRng<G: Rng<OUTPUT>, const OUTPUT: usize>(proved::BufferedRng<Owned<G>, OUTPUT>);

/// The inner generator, which the proved buffer asks for whole blocks only.
#[derive(Clone)]
struct Owned<G>(G);

impl<G: Rng<OUTPUT>, const OUTPUT: usize> proved::Rng<OUTPUT> for Owned<G> {
    #[inline]
    fn rand(&mut self) -> [u8; OUTPUT] {
        self.0.rand()
    }
}

impl<G: Rng<OUTPUT>, const OUTPUT: usize> BufferedRng<G, OUTPUT> {
    /// Wraps a generator. The buffer is empty, and nothing is drawn.
    pub fn new(rng: G) -> Self {
        Self(proved::BufferedRng::new(Owned(rng)))
    }

    /// Returns the inner generator and drops the buffered bytes.
    pub fn into_inner(self) -> G {
        self.0.into_inner().0
    }

    /// Returns the number of buffered bytes.
    pub fn buffered(&self) -> usize {
        self.0.buffered()
    }
}

impl<G: Rng<OUTPUT>, const OUTPUT: usize> Rng<OUTPUT> for BufferedRng<G, OUTPUT> {
    #[inline]
    fn rand(&mut self) -> [u8; OUTPUT] {
        self.0.rand()
    }

    #[inline]
    fn fill_bytes<Bytes: AsMut<[u8]>>(&mut self, mut buffer: Bytes) {
        self.0.fill_bytes(buffer.as_mut());
    }
}

impl<G, const SEED_SIZE: usize, const OUTPUT: usize> proved::SeedableRng<SEED_SIZE, OUTPUT>
    for Owned<G>
where
    G: SeedableRng<SEED_SIZE, OUTPUT>,
{
    fn reseed(&mut self, seed: [u8; SEED_SIZE]) {
        self.0.reseed(seed);
    }
}

impl<G, const OUTPUT: usize, const SEED_SIZE: usize> SeedableRng<SEED_SIZE, OUTPUT>
    for BufferedRng<G, OUTPUT>
where
    G: SeedableRng<SEED_SIZE, OUTPUT>,
{
    /// Reseeds the inner generator. The buffered bytes stay, and are delivered before the new
    /// stream.
    fn reseed(&mut self, seed: [u8; SEED_SIZE]) {
        self.0.reseed(seed);
    }
}

impl<G: Rng<OUTPUT> + Default, const OUTPUT: usize> Default for BufferedRng<G, OUTPUT> {
    fn default() -> Self {
        Self::new(G::default())
    }
}

/// The stream never ends: `read` fills the whole slice.
#[cfg(feature = "std")]
impl<G: Rng<OUTPUT>, const OUTPUT: usize> Read for BufferedRng<G, OUTPUT> {
    fn read(&mut self, output: &mut [u8]) -> io::Result<usize> {
        self.0.read(output)
    }

    /// Appends only the buffered bytes.
    fn read_to_end(&mut self, output: &mut std::vec::Vec<u8>) -> io::Result<usize> {
        Read::read_to_end(&mut self.0, output)
    }

    /// Always panics, as in `nanorand` 0.7.0, since the stream never ends and is not text.
    fn read_to_string(&mut self, _: &mut std::string::String) -> io::Result<usize> {
        panic!("{}", proved::buffer::TextRefused)
    }
}
