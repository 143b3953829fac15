//! A mutable reference to a generator is a generator: call `f(&mut rng)` where `f` takes any `Rng`.

use crate::rand::{Rng, SeedableRng};
use crate::values::RangeError;

/// Each call is passed on to the borrowed generator.
impl<R: Rng<OUTPUT>, const OUTPUT: usize> Rng<OUTPUT> for &mut R {
    #[inline]
    fn rand(&mut self) -> [u8; OUTPUT] {
        (**self).rand()
    }

    #[inline]
    fn fill_bytes(&mut self, buffer: &mut [u8]) {
        (**self).fill_bytes(buffer);
    }

    #[inline]
    fn shuffle<T>(&mut self, target: &mut [T]) -> Result<(), RangeError> {
        (**self).shuffle(target)
    }
}

impl<R, const SEED_SIZE: usize, const OUTPUT: usize> SeedableRng<SEED_SIZE, OUTPUT> for &mut R
where
    R: SeedableRng<SEED_SIZE, OUTPUT>,
{
    #[inline]
    fn reseed(&mut self, seed: [u8; SEED_SIZE]) {
        (**self).reseed(seed);
    }
}
