//! The unsigned types: the rank of a number is the number itself.

use super::Number;

impl Number for u8 {
    const BITS: u32 = 8;

    #[inline]
    fn place(self) -> u64 {
        u64::from(self)
    }

    #[inline]
    fn at_place(place: u64) -> u8 {
        place as u8
    }
}

impl Number for u16 {
    const BITS: u32 = 16;

    #[inline]
    fn place(self) -> u64 {
        u64::from(self)
    }

    #[inline]
    fn at_place(place: u64) -> u16 {
        place as u16
    }
}

impl Number for u32 {
    const BITS: u32 = 32;

    #[inline]
    fn place(self) -> u64 {
        u64::from(self)
    }

    #[inline]
    fn at_place(place: u64) -> u32 {
        place as u32
    }
}

impl Number for u64 {
    const BITS: u32 = 64;

    #[inline]
    fn place(self) -> u64 {
        self
    }

    #[inline]
    fn at_place(place: u64) -> u64 {
        place
    }
}

impl Number for usize {
    const BITS: u32 = 64;

    #[inline]
    fn place(self) -> u64 {
        self as u64
    }

    #[inline]
    fn at_place(place: u64) -> usize {
        place as usize
    }
}
