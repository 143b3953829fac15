//! The works of the benchmark of programs, with the calls of each library. They are a separate
//! crate, so that its generic functions are compiled where a program uses them.

// A work is inlined as if it were written where it is used. What else is inlined is up to the
// library.
#![allow(clippy::inline_always)]

use std::fmt::Debug;
use std::marker::PhantomData;

/// A value that is drawn for each item of a slice.
pub trait Draw<R> {
    type Item: Copy;

    /// Draws the value. The bound is known only at run time. Not every work has one.
    fn draw(rng: &mut R, bound: Self::Item) -> Self::Item;
}

/// What one call does to a slice.
pub trait Whole<R> {
    type Item: Copy;

    fn run(rng: &mut R, items: &mut [Self::Item]);
}

/// Any value of the type.
pub struct Value<L, T>(PhantomData<(L, T)>);

/// A number from 0 up to the bound, exclusive.
pub struct Below<L, T>(PhantomData<(L, T)>);

/// A number from -50 to 50. The bounds are known at compile time.
pub struct Within<L>(PhantomData<L>);

/// A die: a number from 1 to 6 of `i32`, the type of a range of literals.
pub struct Die<L>(PhantomData<L>);

/// A shuffle of the items.
pub struct Shuffle<L, T>(PhantomData<(L, T)>);

/// Any values, with the library's own call for a slice.
pub struct Fill<L, T>(PhantomData<(L, T)>);

/// Bytes, with one request.
pub struct Bytes<L>(PhantomData<L>);

/// A function that is generic over generators.
pub fn draw_each<D: Draw<R>, R>(rng: &mut R, items: &mut [D::Item], bound: D::Item) {
    for item in items {
        *item = D::draw(rng, bound);
    }
}

/// A function that is generic over generators.
pub fn run_whole<W: Whole<R>, R>(rng: &mut R, items: &mut [W::Item]) {
    W::run(rng, items);
}

// Takes the number of a draw, as a program does.
#[inline(always)]
fn drawn<T, E: Debug>(result: Result<T, E>) -> T {
    result.unwrap()
}

/// This library.
pub struct Here;

mod here {
    use super::{drawn, Below, Bytes, Die, Draw, Fill, Here, Shuffle, Value, Whole, Within};
    use nanorand_proved::{RandomGen, RandomRange, Rng};

    impl<R: Rng<8>, T: RandomGen<R, 8> + Copy> Draw<R> for Value<Here, T> {
        type Item = T;

        #[inline(always)]
        fn draw(rng: &mut R, _: T) -> T {
            rng.generate()
        }
    }

    impl<R: Rng<8>, T: RandomRange<R, 8> + Copy + Default> Draw<R> for Below<Here, T> {
        type Item = T;

        #[inline(always)]
        fn draw(rng: &mut R, bound: T) -> T {
            drawn(rng.generate_range(T::default()..bound))
        }
    }

    impl<R: Rng<8>> Draw<R> for Within<Here> {
        type Item = i32;

        #[inline(always)]
        fn draw(rng: &mut R, _: i32) -> i32 {
            drawn(rng.generate_range(-50..=50))
        }
    }

    impl<R: Rng<8>> Draw<R> for Die<Here> {
        type Item = i32;

        #[inline(always)]
        fn draw(rng: &mut R, _: i32) -> i32 {
            drawn(rng.generate_range(1..=6))
        }
    }

    impl<R: Rng<8>, T: Copy> Whole<R> for Shuffle<Here, T> {
        type Item = T;

        #[inline(always)]
        fn run(rng: &mut R, items: &mut [T]) {
            drawn(rng.shuffle(items));
        }
    }

    impl<R: Rng<8>, T: RandomGen<R, 8> + Copy> Whole<R> for Fill<Here, T> {
        type Item = T;

        #[inline(always)]
        fn run(rng: &mut R, items: &mut [T]) {
            rng.fill(items);
        }
    }

    impl<R: Rng<8>> Whole<R> for Bytes<Here> {
        type Item = u8;

        #[inline(always)]
        fn run(rng: &mut R, items: &mut [u8]) {
            rng.fill_bytes(items);
        }
    }
}

/// nanorand 0.7.0.
pub struct Original;

mod original {
    use super::{Below, Bytes, Die, Draw, Fill, Original, Shuffle, Value, Whole, Within};
    use nanorand::rand::Rng;
    use nanorand::{RandomGen, RandomRange};

    impl<R: Rng<8>, T: RandomGen<R, 8> + Copy> Draw<R> for Value<Original, T> {
        type Item = T;

        #[inline(always)]
        fn draw(rng: &mut R, _: T) -> T {
            rng.generate()
        }
    }

    impl<R: Rng<8>, T: RandomRange<R, 8> + Copy + Default> Draw<R> for Below<Original, T> {
        type Item = T;

        #[inline(always)]
        fn draw(rng: &mut R, bound: T) -> T {
            rng.generate_range(T::default()..bound)
        }
    }

    impl<R: Rng<8>> Draw<R> for Within<Original> {
        type Item = i32;

        #[inline(always)]
        fn draw(rng: &mut R, _: i32) -> i32 {
            rng.generate_range(-50..=50)
        }
    }

    impl<R: Rng<8>> Draw<R> for Die<Original> {
        type Item = i32;

        #[inline(always)]
        fn draw(rng: &mut R, _: i32) -> i32 {
            rng.generate_range(1..=6)
        }
    }

    impl<R: Rng<8>, T: Copy> Whole<R> for Shuffle<Original, T> {
        type Item = T;

        #[inline(always)]
        fn run(rng: &mut R, items: &mut [T]) {
            rng.shuffle(items);
        }
    }

    impl<R: Rng<8>, T: RandomGen<R, 8> + Copy> Whole<R> for Fill<Original, T> {
        type Item = T;

        #[inline(always)]
        fn run(rng: &mut R, items: &mut [T]) {
            rng.fill(items);
        }
    }

    impl<R: Rng<8>> Whole<R> for Bytes<Original> {
        type Item = u8;

        #[inline(always)]
        fn run(rng: &mut R, items: &mut [u8]) {
            rng.fill_bytes(items);
        }
    }
}

/// rand 0.8, with its `SmallRng` and `StdRng` and the generators of `rand_pcg`.
pub struct Rand;

#[cfg(feature = "peers")]
mod by_rand {
    use super::{Below, Bytes, Die, Draw, Fill, Rand, Shuffle, Value, Whole, Within};
    use rand::distributions::uniform::SampleUniform;
    use rand::distributions::{Distribution, Standard};
    use rand::seq::SliceRandom;
    use rand::{Fill as Filled, Rng};

    impl<R: Rng, T: Copy> Draw<R> for Value<Rand, T>
    where
        Standard: Distribution<T>,
    {
        type Item = T;

        #[inline(always)]
        fn draw(rng: &mut R, _: T) -> T {
            rng.gen()
        }
    }

    impl<R: Rng, T: SampleUniform + PartialOrd + Copy + Default> Draw<R> for Below<Rand, T> {
        type Item = T;

        #[inline(always)]
        fn draw(rng: &mut R, bound: T) -> T {
            rng.gen_range(T::default()..bound)
        }
    }

    impl<R: Rng> Draw<R> for Within<Rand> {
        type Item = i32;

        #[inline(always)]
        fn draw(rng: &mut R, _: i32) -> i32 {
            rng.gen_range(-50..=50)
        }
    }

    impl<R: Rng> Draw<R> for Die<Rand> {
        type Item = i32;

        #[inline(always)]
        fn draw(rng: &mut R, _: i32) -> i32 {
            rng.gen_range(1..=6)
        }
    }

    impl<R: Rng, T: Copy> Whole<R> for Shuffle<Rand, T> {
        type Item = T;

        #[inline(always)]
        fn run(rng: &mut R, items: &mut [T]) {
            items.shuffle(rng);
        }
    }

    impl<R: Rng, T: Copy> Whole<R> for Fill<Rand, T>
    where
        [T]: Filled,
    {
        type Item = T;

        #[inline(always)]
        fn run(rng: &mut R, items: &mut [T]) {
            rng.fill(items);
        }
    }

    impl<R: Rng> Whole<R> for Bytes<Rand> {
        type Item = u8;

        #[inline(always)]
        fn run(rng: &mut R, items: &mut [u8]) {
            rng.fill_bytes(items);
        }
    }
}

/// fastrand 1.8, whose words are `WyRand`'s.
pub struct Fast;

#[cfg(feature = "peers")]
mod by_fastrand {
    use super::{Below, Die, Draw, Fast, Fill, Shuffle, Value, Whole, Within};
    use fastrand::Rng;

    macro_rules! values {
        ($($value:ident ($($all:tt)*)),+) => { $(
            impl Draw<Rng> for Value<Fast, $value> {
                type Item = $value;

                #[inline(always)]
                fn draw(rng: &mut Rng, _: $value) -> $value {
                    rng.$value($($all)*)
                }
            }
        )+ };
    }

    values!(u8(..), u32(..), u64(..), f64(), bool());

    macro_rules! below {
        ($($value:ident),+) => { $(
            impl Draw<Rng> for Below<Fast, $value> {
                type Item = $value;

                #[inline(always)]
                fn draw(rng: &mut Rng, bound: $value) -> $value {
                    rng.$value(0..bound)
                }
            }
        )+ };
    }

    below!(u8, u16, u32, u64, usize);

    impl Draw<Rng> for Within<Fast> {
        type Item = i32;

        #[inline(always)]
        fn draw(rng: &mut Rng, _: i32) -> i32 {
            rng.i32(-50..=50)
        }
    }

    impl Draw<Rng> for Die<Fast> {
        type Item = i32;

        #[inline(always)]
        fn draw(rng: &mut Rng, _: i32) -> i32 {
            rng.i32(1..=6)
        }
    }

    impl<T: Copy> Whole<Rng> for Shuffle<Fast, T> {
        type Item = T;

        #[inline(always)]
        fn run(rng: &mut Rng, items: &mut [T]) {
            rng.shuffle(items);
        }
    }

    macro_rules! fills {
        ($($value:ident),+) => { $(
            // `fastrand` has no call for a slice.
            impl Whole<Rng> for Fill<Fast, $value> {
                type Item = $value;

                #[inline(always)]
                fn run(rng: &mut Rng, items: &mut [$value]) {
                    for item in items {
                        *item = rng.$value(..);
                    }
                }
            }
        )+ };
    }

    fills!(u16, u32);
}
