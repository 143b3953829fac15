use nanorand_proved::{Rng, WyRand};
use rand_core::{SeedableRng, TryRng};
use std::convert::Infallible;

#[derive(Clone, Debug, PartialEq, Eq)]
pub struct Core<G, const OUTPUT: usize>(pub G);

impl<G: Rng<OUTPUT>, const OUTPUT: usize> TryRng for Core<G, OUTPUT> {
    type Error = Infallible;
    fn try_next_u32(&mut self) -> Result<u32, Infallible> { Ok(self.0.next_u32()) }
    fn try_next_u64(&mut self) -> Result<u64, Infallible> { Ok(self.0.next_u64()) }
    fn try_fill_bytes(&mut self, bytes: &mut [u8]) -> Result<(), Infallible> {
        self.0.fill_bytes(bytes);
        Ok(())
    }
}

impl SeedableRng for Core<WyRand, 8> {
    type Seed = [u8; 8];
    fn from_seed(seed: [u8; 8]) -> Self { Core(WyRand::from_seed(seed)) }
    fn seed_from_u64(number: u64) -> Self { Core(WyRand::seed_from_u64(number)) }
}
