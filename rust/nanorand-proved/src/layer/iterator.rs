//! An iterator of random values. Hand-written and tested, not proved.

use crate::rand::Rng;
use crate::values::RandomGen;
use core::iter::FusedIterator;
use core::marker::PhantomData;

/// An endless iterator of the values that a generator draws. [`Rng::generate_iter`] creates it.
#[derive(Debug)]
#[must_use = "an iterator draws only the values that are asked for"]
pub struct GenerateIter<'a, T, G, const OUTPUT: usize> {
    rng: &'a mut G,
    values: PhantomData<fn() -> T>,
}

impl<'a, T, G, const OUTPUT: usize> GenerateIter<'a, T, G, OUTPUT> {
    pub(crate) fn new(rng: &'a mut G) -> Self {
        GenerateIter {
            rng,
            values: PhantomData,
        }
    }
}

impl<T, G, const OUTPUT: usize> Iterator for GenerateIter<'_, T, G, OUTPUT>
where
    T: RandomGen<G, OUTPUT>,
    G: Rng<OUTPUT>,
{
    type Item = T;

    #[inline]
    fn next(&mut self) -> Option<T> {
        Some(self.rng.generate())
    }

    fn size_hint(&self) -> (usize, Option<usize>) {
        (usize::MAX, None)
    }
}

impl<T, G, const OUTPUT: usize> FusedIterator for GenerateIter<'_, T, G, OUTPUT>
where
    T: RandomGen<G, OUTPUT>,
    G: Rng<OUTPUT>,
{
}
