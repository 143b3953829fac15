//! `WyRand`: a generator with a 64-bit seed that draws a 64-bit word at a time.

use crate::entropy::system_seed;
use crate::rand::{Rng, SeedableRng};
use core::fmt::{self, Debug, Display, Formatter};
use nanorand_proved as proved;
use nanorand_proved::Rng as _;

/// The generator wyrand: see [`nanorand_proved::WyRand`].
///
/// **Not cryptographically secure:** its state can be recovered from its outputs.
#[derive(Clone)]
pub struct WyRand {
    seed: u64,
}

#[cfg(feature = "zeroize")]
super::wiped::wiped!([] WyRand: seed);

impl WyRand {
    /// Creates a generator with a seed from the operating system.
    ///
    /// # Panics
    ///
    /// Panics if the system provides no seed.
    #[must_use]
    pub fn new() -> Self {
        Self::new_seed(u64::from_le_bytes(system_seed()))
    }

    /// Creates a generator with this seed.
    ///
    /// The seed is the state itself, and is not mixed. Generators with neighbouring seeds, such as
    /// 0, 1, 2, .., draw correlated numbers. If you need many generators, use mixed seeds: numbers
    /// that another generator drew, or the first 8 bytes of the SHA-256 of a name.
    #[inline]
    #[must_use]
    pub const fn new_seed(seed: u64) -> Self {
        Self { seed }
    }
}

/// Calls [`WyRand::new`].
impl Default for WyRand {
    fn default() -> Self {
        Self::new()
    }
}

impl Rng<8> for WyRand {
    #[inline]
    fn rand(&mut self) -> [u8; 8] {
        let mut rng = proved::WyRand::new_seed(self.seed);
        let block = rng.rand();
        self.seed = rng.seed();
        block
    }
}

impl SeedableRng<8, 8> for WyRand {
    /// Uses these bytes as the new seed, in little-endian order.
    fn reseed(&mut self, seed: [u8; 8]) {
        self.seed = u64::from_le_bytes(seed);
    }
}

/// Displays the name and the address.
impl Display for WyRand {
    fn fmt(&self, f: &mut Formatter<'_>) -> fmt::Result {
        write!(f, "WyRand ({self:p})")
    }
}

impl Debug for WyRand {
    fn fmt(&self, f: &mut Formatter<'_>) -> fmt::Result {
        f.debug_struct("WyRand")
            .field("seed", &format_args!("{:#x}", self.seed))
            .finish()
    }
}
