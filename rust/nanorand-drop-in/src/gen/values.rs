//! Values of the number types and of `bool`.

use super::RandomGen;
use crate::adapter::Lent;
use crate::rand::Rng;
use nanorand_proved as proved;

macro_rules! proved_values {
    ($($value:ty),+) => { $(
        impl<G: Rng<OUTPUT>, const OUTPUT: usize> RandomGen<G, OUTPUT> for $value {
            #[inline]
            fn random(rng: &mut G) -> Self {
                <Self as proved::RandomGen<_, OUTPUT>>::random(&mut Lent(rng))
            }
        }
    )+ };
}

proved_values!(u8, u16, u32, u64, u128, usize);
proved_values!(i8, i16, i32, i64, i128, isize, bool);

macro_rules! quotients {
    ($($float:ident: $word:ident),+) => { $(
        impl<G: Rng<OUTPUT>, const OUTPUT: usize> RandomGen<G, OUTPUT> for $float {
            // The rounding is that of `nanorand` 0.7.0.
            #[allow(clippy::cast_precision_loss)]
            #[inline]
            fn random(rng: &mut G) -> Self {
                let word: $word = rng.generate();
                word as $float / <$word>::MAX as $float
            }
        }
    )+ };
}

quotients!(f32: u32, f64: u64);
