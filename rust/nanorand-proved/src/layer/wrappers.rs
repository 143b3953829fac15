//! Optional and wrapping values. Hand-written and tested, not proved.

use crate::rand::Rng;
use crate::values::RandomGen;
use core::num::Wrapping;

/// Draws a `bool`. If it is true, draws a value; otherwise the result is `None`.
impl<T: RandomGen<G, OUTPUT>, G: Rng<OUTPUT>, const OUTPUT: usize> RandomGen<G, OUTPUT>
    for Option<T>
{
    #[inline]
    fn random(rng: &mut G) -> Self {
        bool::random(rng).then(|| T::random(rng))
    }
}

/// Draws the value inside.
impl<T: RandomGen<G, OUTPUT>, G: Rng<OUTPUT>, const OUTPUT: usize> RandomGen<G, OUTPUT>
    for Wrapping<T>
{
    #[inline]
    fn random(rng: &mut G) -> Self {
        Wrapping(T::random(rng))
    }
}
