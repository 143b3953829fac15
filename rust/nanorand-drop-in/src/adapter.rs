//! Adapts a generator of this crate to the traits of `nanorand_proved`, so that its functions draw
//! from it.

use crate::rand::Rng;
use nanorand_proved as proved;

/// A generator, borrowed for one call. Each request is passed on to it.
pub(crate) struct Lent<'a, G>(pub(crate) &'a mut G);

impl<G: Rng<OUTPUT>, const OUTPUT: usize> proved::Rng<OUTPUT> for Lent<'_, G> {
    #[inline]
    fn rand(&mut self) -> [u8; OUTPUT] {
        self.0.rand()
    }

    #[inline]
    fn fill_bytes(&mut self, buffer: &mut [u8]) {
        self.0.fill_bytes(buffer);
    }
}
