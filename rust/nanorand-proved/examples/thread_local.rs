//! A generator for each thread, which a function lends, as `tls_rng` of the crate `nanorand` 0.7.0 does. The operating
//! system seeds it at the first draw of the thread.

use nanorand_proved::{Rng, WyRand};
use std::cell::RefCell;
use std::thread;

thread_local!(static OWN: RefCell<WyRand> = RefCell::default());

struct TlsRng;

impl Rng<8> for TlsRng {
    fn rand(&mut self) -> [u8; 8] {
        OWN.with(|rng| rng.borrow_mut().rand())
    }
}

fn tls_rng() -> TlsRng {
    TlsRng
}

fn main() {
    let throw = || -> u8 { tls_rng().range(1..=6) };
    let other = thread::spawn(move || [throw(), throw()]).join();
    println!("{:?} {other:?}", [throw(), throw()]);
}
