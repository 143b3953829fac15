//! Tuples of up to twelve values, drawn in order. Hand-written and tested, not proved.

use crate::rand::Rng;
use crate::values::RandomGen;

// Implements `RandomGen` for one tuple, and then for the same tuple without its first members.
macro_rules! tuples {
    ($first:ident $($other:ident)*) => {
        #[cfg_attr(do_not_recommend, diagnostic::do_not_recommend)]
        impl<$first, $($other,)* G, const OUTPUT: usize> RandomGen<G, OUTPUT> for ($first, $($other,)*)
        where
            G: Rng<OUTPUT>,
            $first: RandomGen<G, OUTPUT>,
            $($other: RandomGen<G, OUTPUT>,)*
        {
            #[inline]
            fn random(rng: &mut G) -> Self {
                ($first::random(rng), $($other::random(rng),)*)
            }
        }
        tuples!($($other)*);
    };
    () => {};
}

tuples!(A B C D E F H I J K L M);
