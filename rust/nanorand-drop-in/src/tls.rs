//! The generator of the current thread.

use crate::rand::{Rng, SeedableRng, WyRand};
use core::cell::RefCell;
use std::rc::Rc;

std::thread_local! {
    static OF_THE_THREAD: TlsWyRand = TlsWyRand(Rc::new(RefCell::new(WyRand::new())));
}

/// A handle to the generator of a thread. All handles of one thread refer to the same generator.
#[derive(Clone)]
#[doc(hidden)]
pub struct TlsWyRand(Rc<RefCell<WyRand>>);

impl Rng<8> for TlsWyRand {
    #[inline]
    fn rand(&mut self) -> [u8; 8] {
        self.0.borrow_mut().rand()
    }
}

impl SeedableRng<8, 8> for TlsWyRand {
    fn reseed(&mut self, seed: [u8; 8]) {
        self.0.borrow_mut().reseed(seed);
    }
}

/// Returns the thread's [`WyRand`]. The first call in a thread seeds it from the operating system.
///
/// The handle cannot leave its thread:
///
/// ```compile_fail
/// let rng = nanorand::tls_rng();
/// std::thread::spawn(move || drop(rng));
/// ```
///
/// # Panics
///
/// The first call in a thread panics if the system provides no seed.
#[must_use]
pub fn tls_rng() -> TlsWyRand {
    OF_THE_THREAD.with(TlsWyRand::clone)
}
