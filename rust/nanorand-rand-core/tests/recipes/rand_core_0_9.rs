use nanorand_proved::{Rng, WyRand};
use rand_core::{RngCore, SeedableRng};

#[derive(Clone, Debug, PartialEq, Eq)]
pub struct Core<G, const OUTPUT: usize>(pub G);

impl<G: Rng<OUTPUT>, const OUTPUT: usize> RngCore for Core<G, OUTPUT> {
    fn next_u32(&mut self) -> u32 { self.0.next_u32() }
    fn next_u64(&mut self) -> u64 { self.0.next_u64() }
    fn fill_bytes(&mut self, bytes: &mut [u8]) { self.0.fill_bytes(bytes) }
}

impl SeedableRng for Core<WyRand, 8> {
    type Seed = [u8; 8];
    fn from_seed(seed: [u8; 8]) -> Self { Core(WyRand::from_seed(seed)) }
    fn seed_from_u64(number: u64) -> Self { Core(WyRand::seed_from_u64(number)) }
}
