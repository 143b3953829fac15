//! `WyRand`, whose state in C is the generator itself. Not cryptographically secure.

use crate::calls::State;
use nanorand_proved::WyRand;

impl State<8> for WyRand {
    type Generator = WyRand;

    fn call<T>(&mut self, call: impl FnOnce(&mut WyRand) -> T) -> T {
        call(self)
    }
}

export_calls!("wyrand", WyRand);
export_part!("wyrand", WyRand);

#[no_mangle]
extern "C" fn nanorand_v1_wyrand_new_seed(seed: u64) -> WyRand {
    WyRand::new_seed(seed)
}

#[no_mangle]
extern "C" fn nanorand_v1_wyrand_seed_from_u64(rng: &mut WyRand, number: u64) {
    *rng = WyRand::seed_from_u64(number);
}

#[no_mangle]
extern "C" fn nanorand_v1_wyrand_jump(rng: &mut WyRand, draws: u64) {
    rng.jump(draws);
}

#[no_mangle]
extern "C" fn nanorand_v1_wyrand_distance(rng: &WyRand, other: &WyRand) -> u64 {
    rng.distance(other)
}
