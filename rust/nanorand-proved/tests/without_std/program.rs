//! A program without std. `tests/workspace.sh` compiles it with the crate without features.
#![no_std]

use nanorand_proved::{Rng, WyRand};

#[no_mangle]
pub extern "C" fn word(seed: u64) -> u64 {
    WyRand::new_seed(seed).next_u64()
}

#[panic_handler]
fn panic(_: &core::panic::PanicInfo<'_>) -> ! {
    loop {}
}
