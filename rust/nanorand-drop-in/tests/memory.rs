//! If an allocation fails, a buffer's `read_to_end` returns an error for that, and changes nothing.
#![cfg(all(feature = "std", feature = "wyrand", feature = "chacha"))]

#[path = "common/refusing.rs"]
#[allow(dead_code)] // the programs' tests use its other functions
mod refusing;

use nanorand::{BufferedRng, ChaCha20, Rng, WyRand};
use refusing::refused_after;
use std::io::{ErrorKind, Read};

fn is_refused<R: Rng<OUTPUT>, const OUTPUT: usize>(inner: R) {
    let mut rng = BufferedRng::new(inner);
    rng.read_exact(&mut [0; 3]).unwrap();
    let mut out = vec![7; 5];
    out.shrink_to_fit();
    let refused = refused_after(0, || rng.read_to_end(&mut out));
    assert_eq!(refused.unwrap_err().kind(), ErrorKind::OutOfMemory);
    assert_eq!(out, [7; 5]);
    assert_eq!(rng.read_to_end(&mut out).unwrap(), OUTPUT - 3);
    assert_eq!(out.len(), 5 + OUTPUT - 3);
}

#[test]
fn read_to_end() {
    is_refused(WyRand::new_seed(42));
    is_refused(ChaCha20::new_key([1; 32], [2; 8]));
    is_refused(BufferedRng::new(ChaCha20::new_key([1; 32], [2; 8])));
}
