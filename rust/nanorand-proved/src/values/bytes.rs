//! Arrays: an array of bytes takes one request of its length, any other array is drawn item by
//! item.

use super::RandomGen;
use crate::rand::Rng;

/// Draws the items one after another, in order. An array of bytes takes one request for all of
/// them.
impl<T: RandomGen<G, OUTPUT>, G: Rng<OUTPUT>, const N: usize, const OUTPUT: usize>
    RandomGen<G, OUTPUT> for [T; N]
{
    #[inline]
    fn random(rng: &mut G) -> [T; N] {
        T::array(rng)
    }
}
