//! `Pcg64`, whose state in C is its seed. Not cryptographically secure.

use crate::calls::State;
use nanorand_proved::Pcg64;

/// A 128-bit number, as its low and its high 64 bits.
#[repr(C)]
pub struct Wide {
    low: u64,
    high: u64,
}

impl Wide {
    fn joined(&self) -> u128 {
        u128::from(self.low) | u128::from(self.high) << 64
    }

    #[allow(clippy::cast_possible_truncation)] // Only the low half is kept.
    fn split(number: u128) -> Wide {
        Wide {
            low: number as u64,
            high: (number >> 64) as u64,
        }
    }

    /// Returns the seed that is made from a number.
    pub fn seed_from_u64(number: u64) -> Wide {
        Wide::split(Pcg64::seed_from_u64(number).seed())
    }
}

impl State<8> for Wide {
    type Generator = Pcg64;

    fn call<T>(&mut self, call: impl FnOnce(&mut Pcg64) -> T) -> T {
        let mut rng = Pcg64::new_seed(self.joined());
        let result = call(&mut rng);
        *self = Wide::split(rng.seed());
        result
    }
}

export_calls!("pcg64", Wide);
export_part!("pcg64", Wide);

#[no_mangle]
extern "C" fn nanorand_v1_pcg64_new_seed(low: u64, high: u64) -> Wide {
    Wide { low, high }
}

#[no_mangle]
extern "C" fn nanorand_v1_pcg64_seed_from_u64(seed: &mut Wide, number: u64) {
    *seed = Wide::seed_from_u64(number);
}

#[no_mangle]
extern "C" fn nanorand_v1_pcg64_jump(seed: &mut Wide, draws: &Wide) {
    seed.call(|rng| rng.jump(draws.joined()));
}

/// Returns `NANORAND_OK`, or `NANORAND_OTHER_CYCLE` if no number of draws leads to the other seed;
/// `draws` is unchanged then.
#[no_mangle]
extern "C" fn nanorand_v1_pcg64_distance(seed: &Wide, other: &Wide, draws: &mut Wide) -> u32 {
    match Pcg64::new_seed(seed.joined()).distance(&Pcg64::new_seed(other.joined())) {
        Some(number) => {
            *draws = Wide::split(number);
            0
        }
        None => 4,
    }
}

#[test]
fn a_new_seed_has_these_halves() {
    let seed = nanorand_v1_pcg64_new_seed(1, 2);
    assert_eq!((seed.low, seed.high, seed.joined()), (1, 2, (2 << 64) | 1));
}
