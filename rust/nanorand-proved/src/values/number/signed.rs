//! The signed types: rank 0 is the least number, -2^(BITS - 1).

use super::Number;

impl Number for i8 {
    const BITS: u32 = 8;

    #[inline]
    fn place(self) -> u64 {
        (i128::from(self) - i128::from(i8::MIN)) as u64
    }

    #[inline]
    fn at_place(place: u64) -> i8 {
        (i128::from(place) + i128::from(i8::MIN)) as i8
    }
}

impl Number for i16 {
    const BITS: u32 = 16;

    #[inline]
    fn place(self) -> u64 {
        (i128::from(self) - i128::from(i16::MIN)) as u64
    }

    #[inline]
    fn at_place(place: u64) -> i16 {
        (i128::from(place) + i128::from(i16::MIN)) as i16
    }
}

impl Number for i32 {
    const BITS: u32 = 32;

    #[inline]
    fn place(self) -> u64 {
        (i128::from(self) - i128::from(i32::MIN)) as u64
    }

    #[inline]
    fn at_place(place: u64) -> i32 {
        (i128::from(place) + i128::from(i32::MIN)) as i32
    }
}

impl Number for i64 {
    const BITS: u32 = 64;

    #[inline]
    fn place(self) -> u64 {
        (i128::from(self) - i128::from(i64::MIN)) as u64
    }

    #[inline]
    fn at_place(place: u64) -> i64 {
        (i128::from(place) + i128::from(i64::MIN)) as i64
    }
}

impl Number for isize {
    const BITS: u32 = 64;

    #[inline]
    fn place(self) -> u64 {
        (self as i128 - isize::MIN as i128) as u64
    }

    #[inline]
    fn at_place(place: u64) -> isize {
        (i128::from(place) + isize::MIN as i128) as isize
    }
}
