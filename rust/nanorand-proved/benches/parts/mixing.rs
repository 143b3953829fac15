//! Mixes all draws into one number, so that the compiler cannot omit a draw, and results can be
//! compared.

// Any number made from the value will do, and mixing must be cheap.
#![allow(
    clippy::cast_lossless,
    clippy::cast_possible_truncation,
    clippy::cast_sign_loss,
    clippy::inline_always
)]

pub trait Mix {
    fn number(self) -> u64;
}

macro_rules! mix {
    ($($value:ty),+) => { $(
        impl Mix for $value {
            #[inline(always)]
            fn number(self) -> u64 {
                self as u64
            }
        }
    )+ };
}

mix!(u8, u16, u32, u64, usize, i8, i16, i32, i64, isize, bool);

macro_rules! mix_halves {
    ($($value:ty),+) => { $(
        impl Mix for $value {
            #[inline(always)]
            fn number(self) -> u64 {
                (self as u64) ^ (self >> 64) as u64
            }
        }
    )+ };
}

mix_halves!(u128, i128);

macro_rules! mix_bits {
    ($($value:ty),+) => { $(
        impl Mix for $value {
            #[inline(always)]
            fn number(self) -> u64 {
                self.to_bits() as u64
            }
        }
    )+ };
}

mix_bits!(f32, f64);

#[inline(always)]
pub fn mixed(all: u64, value: impl Mix) -> u64 {
    all.rotate_left(1).wrapping_add(value.number())
}

/// A number that depends on the first items and the last.
pub fn mixed_items<T: Mix + Copy>(items: &[T]) -> u64 {
    let some = items.iter().take(64).chain(items.last());
    some.fold(0, |all, item| mixed(all, *item))
}
