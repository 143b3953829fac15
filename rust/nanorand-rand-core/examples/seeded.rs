use nanorand_proved::WyRand;
use nanorand_proved_rand_core::Core;
use rand_core::{RngCore, SeedableRng};

fn main() {
    let mut rng = Core(WyRand::seed_from_u64(42));
    assert_eq!(rng.next_u64(), 6_327_169_416_285_365_978);
    assert_eq!(rng, Core::from_seed(rng.0.seed().to_le_bytes()));
}
