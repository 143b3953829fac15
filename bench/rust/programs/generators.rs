//! The generators that are measured: how a program seeds each, keeps one in a thread, and borrows
//! one as `dyn`.

use crate::contexts::Generator;
use std::cell::RefCell;
use std::hint::black_box;

// The compiler does not know the seeds.
macro_rules! generators {
    ($($generator:ty = $seeded:expr;)+) => { $(
        impl Generator for $generator {
            #[inline]
            fn seeded() -> Self {
                $seeded
            }

            #[inline]
            fn with<T>(run: impl FnOnce(&mut Self) -> T) -> T {
                thread_local! {
                    static RNG: RefCell<$generator> = RefCell::new($seeded);
                }
                RNG.with(|rng| run(&mut rng.borrow_mut()))
            }
        }
    )+ };
}

generators! {
    nanorand_proved::WyRand = nanorand_proved::WyRand::new_seed(black_box(42));
    nanorand_proved::Pcg64 = nanorand_proved::Pcg64::new_seed(black_box(42));
    nanorand::WyRand = nanorand::WyRand::new_seed(black_box(42));
    nanorand::Pcg64 = nanorand::Pcg64::new_seed(black_box(42));
}

#[cfg(feature = "peers")]
mod peers {
    use super::{black_box, Generator, RefCell};
    use rand::rngs::{SmallRng, StdRng};
    use rand::SeedableRng;

    generators! {
        SmallRng = SmallRng::seed_from_u64(black_box(42));
        StdRng = StdRng::seed_from_u64(black_box(42));
        rand_pcg::Pcg64 = rand_pcg::Pcg64::seed_from_u64(black_box(42));
        fastrand::Rng = fastrand::Rng::with_seed(black_box(42));
    }
}

// The contexts with `dyn`: a function that takes `&mut dyn AnyRng`, or the same of another library.
macro_rules! behind {
    ($dynamic:path) => {
        use crate::contexts::{again, drawn_by_parameter, run_by_parameter, Generator, Run};
        use crate::mixing::Mix;
        use std::hint::black_box;
        use works::{Draw, Whole};

        pub fn draws<D, R, T>(length: u32, bound: T) -> Run
        where
            D: for<'a> Draw<&'a mut (dyn $dynamic + 'a), Item = T>,
            R: Generator + $dynamic,
            T: Copy + Default + Mix + 'static,
        {
            again(length, move |rng: &mut R, items: &mut [T]| {
                let mut rng: &mut dyn $dynamic = black_box(rng);
                drawn_by_parameter::<D, &mut dyn $dynamic>(&mut rng, items, bound);
            })
        }

        pub fn wholes<W, R, T>(length: u32) -> Run
        where
            W: for<'a> Whole<&'a mut (dyn $dynamic + 'a), Item = T>,
            R: Generator + $dynamic,
            T: Copy + Default + Mix + 'static,
        {
            again(length, |rng: &mut R, items: &mut [T]| {
                let mut rng: &mut dyn $dynamic = black_box(rng);
                run_by_parameter::<W, &mut dyn $dynamic>(&mut rng, items);
            })
        }
    };
}

pub mod any_rng {
    behind!(nanorand_proved::AnyRng);
}

#[cfg(feature = "peers")]
pub mod rng_core {
    behind!(rand::RngCore);
}
