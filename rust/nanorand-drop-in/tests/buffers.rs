//! Reads from buffers with block sizes that none of the generators has.
#![cfg(feature = "std")]

use nanorand::{BufferedRng, Rng};
use std::io::Read;
use std::ops::Range;

/// A generator of the bytes of [`stream`], from a position on.
struct Rising<const SIZE: usize>(usize);

impl<const SIZE: usize> Rng<SIZE> for Rising<SIZE> {
    fn rand(&mut self) -> [u8; SIZE] {
        let first = self.0;
        self.0 += SIZE;
        let block = stream(first..self.0);
        block.try_into().expect("the size of a block")
    }
}

impl<const SIZE: usize> Clone for Rising<SIZE> {
    fn clone(&self) -> Self {
        Rising(self.0)
    }
}

/// The bytes 0, 1, 2, .. modulo 251. No block size is a multiple of 251.
fn stream(places: Range<usize>) -> Vec<u8> {
    let byte = |place| u8::try_from(place % 251).expect("a byte");
    places.map(byte).collect()
}

/// The rest of a block is delivered completely, and nothing is drawn for it.
fn ends<const SIZE: usize>(taken: usize) {
    let mut rng = BufferedRng::new(Rising::<SIZE>(0));
    let mut bytes = vec![0; taken];
    rng.read_exact(&mut bytes).unwrap();
    assert!(bytes == stream(0..taken), "{SIZE} {taken}");
    let drawn = (taken + SIZE - 1) / SIZE * SIZE;
    assert_eq!(rng.buffered(), drawn - taken);
    for rest in [drawn - taken, 0] {
        let mut bytes = vec![9; 3];
        let count = rng.read_to_end(&mut bytes).unwrap();
        assert_eq!(count, rest, "{SIZE} {taken}");
        let wanted = [vec![9; 3], stream(drawn - rest..drawn)].concat();
        assert!(bytes == wanted, "{SIZE} {taken}");
        assert_eq!(rng.buffered(), 0);
    }
    assert_eq!(rng.into_inner().0, drawn);
}

/// Each read fills its slice, and continues where the one before ended.
fn reads<const SIZE: usize>() {
    let mut rng = BufferedRng::new(Rising::<SIZE>(0));
    let mut place = 0;
    for length in [1, 255, 256, 257, 0, SIZE - 1, SIZE, SIZE + 1, 3 * SIZE - 1] {
        let calls: [fn(&mut BufferedRng<_, SIZE>, &mut [u8]) -> usize; 3] = [
            |rng, bytes| rng.read(bytes).unwrap(),
            |rng, bytes| rng.read_exact(bytes).map(|()| bytes.len()).unwrap(),
            |rng, bytes| {
                rng.fill_bytes(&mut *bytes);
                bytes.len()
            },
        ];
        for call in calls {
            let mut bytes = vec![0; length];
            assert_eq!(call(&mut rng, &mut bytes), length);
            assert!(bytes == stream(place..place + length), "{SIZE} {length}");
            place += length;
        }
    }
}

fn check<const SIZE: usize>() {
    for taken in [0, 1, SIZE / 2, SIZE - 1, SIZE, SIZE + 1, 3 * SIZE - 1] {
        ends::<SIZE>(taken);
    }
    reads::<SIZE>();
}

#[test]
fn blocks_of_many_sizes() {
    check::<1>();
    check::<7>();
    check::<64>();
    check::<257>();
    check::<512>();
    check::<5000>();
}
