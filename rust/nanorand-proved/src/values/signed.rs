//! The signed types: one request for their bytes, in little-endian order and two's complement.

use super::RandomGen;
use crate::rand::Rng;

impl<G: Rng<OUTPUT>, const OUTPUT: usize> RandomGen<G, OUTPUT> for i8 {
    #[inline(always)]
    fn random(rng: &mut G) -> i8 {
        u8::random(rng) as i8
    }
}

impl<G: Rng<OUTPUT>, const OUTPUT: usize> RandomGen<G, OUTPUT> for i16 {
    #[inline(always)]
    fn random(rng: &mut G) -> i16 {
        u16::random(rng) as i16
    }
}

impl<G: Rng<OUTPUT>, const OUTPUT: usize> RandomGen<G, OUTPUT> for i32 {
    #[inline(always)]
    fn random(rng: &mut G) -> i32 {
        u32::random(rng) as i32
    }
}

impl<G: Rng<OUTPUT>, const OUTPUT: usize> RandomGen<G, OUTPUT> for i64 {
    #[inline(always)]
    fn random(rng: &mut G) -> i64 {
        u64::random(rng) as i64
    }
}

impl<G: Rng<OUTPUT>, const OUTPUT: usize> RandomGen<G, OUTPUT> for i128 {
    #[inline(always)]
    fn random(rng: &mut G) -> i128 {
        u128::random(rng) as i128
    }
}

impl<G: Rng<OUTPUT>, const OUTPUT: usize> RandomGen<G, OUTPUT> for isize {
    #[inline(always)]
    fn random(rng: &mut G) -> isize {
        u64::random(rng) as isize
    }
}
