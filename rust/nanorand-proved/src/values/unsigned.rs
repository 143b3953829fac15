//! The unsigned types: one request for their bytes, in little-endian order.

use super::{next_bytes, RandomGen};
use crate::rand::Rng;

impl<G: Rng<OUTPUT>, const OUTPUT: usize> RandomGen<G, OUTPUT> for u8 {
    #[inline(always)]
    fn random(rng: &mut G) -> u8 {
        u8::from_le_bytes(next_bytes(rng))
    }

    #[inline]
    fn array<const N: usize>(rng: &mut G) -> [u8; N] {
        next_bytes(rng)
    }
}

impl<G: Rng<OUTPUT>, const OUTPUT: usize> RandomGen<G, OUTPUT> for u16 {
    #[inline(always)]
    fn random(rng: &mut G) -> u16 {
        u16::from_le_bytes(next_bytes(rng))
    }
}

impl<G: Rng<OUTPUT>, const OUTPUT: usize> RandomGen<G, OUTPUT> for u32 {
    #[inline(always)]
    fn random(rng: &mut G) -> u32 {
        u32::from_le_bytes(next_bytes(rng))
    }
}

impl<G: Rng<OUTPUT>, const OUTPUT: usize> RandomGen<G, OUTPUT> for u64 {
    #[inline(always)]
    fn random(rng: &mut G) -> u64 {
        u64::from_le_bytes(next_bytes(rng))
    }
}

impl<G: Rng<OUTPUT>, const OUTPUT: usize> RandomGen<G, OUTPUT> for u128 {
    #[inline(always)]
    fn random(rng: &mut G) -> u128 {
        u128::from_le_bytes(next_bytes(rng))
    }
}

impl<G: Rng<OUTPUT>, const OUTPUT: usize> RandomGen<G, OUTPUT> for usize {
    #[inline(always)]
    fn random(rng: &mut G) -> usize {
        u64::from_le_bytes(next_bytes(rng)) as usize
    }
}
