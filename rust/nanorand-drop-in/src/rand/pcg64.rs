//! `Pcg64`: a generator with a 128-bit seed that draws a 64-bit word at a time.

use crate::entropy::system_seed;
use crate::rand::{Rng, SeedableRng};
use core::fmt::{self, Debug, Display, Formatter};
use nanorand_proved as proved;
use nanorand_proved::Rng as _;

/// The generator `Pcg64` of `nanorand` 0.7.0: see [`nanorand_proved::Pcg64`].
///
/// **Not cryptographically secure:** its state can be recovered from its outputs.
#[derive(Clone)]
pub struct Pcg64 {
    seed: u128,
    // `state` and `inc` describe the last draw. Only the `Debug` text reads them.
    state: u128,
    inc: u128,
}

#[cfg(feature = "zeroize")]
super::wiped::wiped!([] Pcg64: seed, state, inc);

impl Pcg64 {
    /// Creates a generator with a seed from the operating system.
    ///
    /// # Panics
    ///
    /// Panics if the system provides no seed.
    #[must_use]
    pub fn new() -> Self {
        Self::new_seed(u128::from_le_bytes(system_seed()))
    }

    /// Creates a generator with this seed.
    ///
    /// The seed is the state itself, and is not mixed. Generators with neighbouring seeds, such as
    /// 0, 1, 2, .., draw correlated numbers. If you need many generators, use mixed seeds: numbers
    /// that another generator drew, or the first 16 bytes of the SHA-256 of a name.
    #[inline]
    #[must_use]
    pub const fn new_seed(seed: u128) -> Self {
        Self {
            seed,
            state: 0,
            inc: 0,
        }
    }
}

/// Calls [`Pcg64::new`].
impl Default for Pcg64 {
    fn default() -> Self {
        Self::new()
    }
}

impl Rng<8> for Pcg64 {
    #[inline]
    fn rand(&mut self) -> [u8; 8] {
        let mut rng = proved::Pcg64::new_seed(self.seed);
        let block = rng.rand();
        self.inc = self.seed << 1 | 1;
        self.seed = rng.seed();
        self.state = self.seed;
        block
    }
}

impl SeedableRng<16, 8> for Pcg64 {
    /// Uses these bytes as the new seed, in little-endian order.
    fn reseed(&mut self, seed: [u8; 16]) {
        self.seed = u128::from_le_bytes(seed);
    }
}

/// Displays the name and the address.
impl Display for Pcg64 {
    fn fmt(&self, f: &mut Formatter<'_>) -> fmt::Result {
        write!(f, "Pcg64 ({self:p})")
    }
}

impl Debug for Pcg64 {
    fn fmt(&self, f: &mut Formatter<'_>) -> fmt::Result {
        f.debug_struct("Pcg64")
            .field("seed", &format_args!("{:#x}", self.seed))
            .field("state", &format_args!("{:#x}", self.state))
            .field("inc", &format_args!("{:#x}", self.inc))
            .finish()
    }
}
