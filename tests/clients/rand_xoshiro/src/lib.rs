//! The generator of `rand_xoshiro` 0.6 that its client `im-rc` uses. The traits of `rand_core` 0.6 come from the adapter.
#![no_std]
#![forbid(unsafe_code)]
#![deny(missing_docs)]

use nanorand_proved::WyRand;
use nanorand_proved_rand_core::Core;

/// A `WyRand` in place of the generator of this name, so its numbers differ. `im-rc` seeds it by `seed_from_u64`,
/// and draws from it the pivots of its quicksort.
pub type Xoshiro256Plus = Core<WyRand, 8>;
