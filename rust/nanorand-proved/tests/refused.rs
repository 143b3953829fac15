//! Allocations that fail. Two calls allocate. If the allocation fails, `read_to_end` returns an
//! error and changes neither the vector nor the buffer, and `sample` works without the memory.
#![cfg(feature = "std")]

mod common;

use common::{rising, Steps};
use nanorand_proved::samples::sample;
use nanorand_proved::shuffles::shuffle_full;
use nanorand_proved::{chacha_stream, BufferedRng, ChaCha20, RangeError, Rng, WyRand};
use std::alloc::{GlobalAlloc, Layout, System};
use std::cell::Cell;
use std::io::{ErrorKind, Read};

thread_local! {
    /// The size in bytes of this thread's largest allocation that succeeds.
    static MOST: Cell<usize> = const { Cell::new(usize::MAX) };
    /// How many more bytes this thread has allocated than freed.
    static HELD: Cell<isize> = const { Cell::new(0) };
}

fn hold(bytes: isize) {
    HELD.with(|held| held.set(held.get() + bytes));
}

/// No allocation is larger than this type's maximum.
fn signed(size: usize) -> isize {
    isize::try_from(size).expect("a size")
}

/// The system's allocator, except that allocations above a thread's limit fail.
struct Refusing;

// SAFETY: each call is passed on to the system's allocator, or returns null, which means failure.
unsafe impl GlobalAlloc for Refusing {
    unsafe fn alloc(&self, layout: Layout) -> *mut u8 {
        if layout.size() > MOST.with(Cell::get) {
            std::ptr::null_mut()
        } else {
            hold(signed(layout.size()));
            // SAFETY: `System` needs what the caller of this function guarantees.
            unsafe { System.alloc(layout) }
        }
    }

    unsafe fn dealloc(&self, bytes: *mut u8, layout: Layout) {
        hold(-signed(layout.size()));
        // SAFETY: `System` needs what the caller of this function guarantees, and `bytes` are from
        // it, like every allocation.
        unsafe { System.dealloc(bytes, layout) }
    }
}

#[global_allocator]
static HEAP: Refusing = Refusing;

/// The result of a call if every allocation of more than `most` bytes fails.
fn with_memory<T>(most: usize, call: impl FnOnce() -> T) -> T {
    MOST.with(|granted| granted.set(most));
    let result = call();
    MOST.with(|granted| granted.set(usize::MAX));
    result
}

/// The result of a call if every allocation fails.
fn without_memory<T>(call: impl FnOnce() -> T) -> T {
    with_memory(0, call)
}

/// The rest of a block cannot be appended to a full vector if every allocation fails. It can if a
/// vector of twice the size can be allocated.
fn is_refused<G: Rng<OUTPUT> + Clone, const OUTPUT: usize>(fresh: &G, taken: usize, held: usize) {
    let mut rng = BufferedRng::new(fresh.clone());
    rng.fill_bytes(&mut vec![0; taken]);
    let left = rng.rest().to_vec();
    let mut out = vec![7; held];
    out.shrink_to_fit();
    let room = out.capacity();

    let refused = without_memory(|| rng.read_to_end(&mut out)).is_err();
    let refused_as_reader = without_memory(|| Read::read_to_end(&mut rng, &mut out));
    let kind = refused_as_reader.map_err(|error| error.kind());
    assert!(refused);
    assert_eq!(kind, Err(ErrorKind::OutOfMemory));
    assert!(out.iter().all(|byte| *byte == 7));
    assert_eq!((out.len(), out.capacity()), (held, room));
    assert_eq!(rng.rest(), left);

    let twice = 2 * (held + OUTPUT);
    let count = with_memory(twice, || rng.read_to_end(&mut out)).expect("memory");
    assert_eq!(count, left.len());
    assert_eq!(out[held..], left);
    assert_eq!(rng.buffered(), 0);
}

/// The same after each number of bytes.
fn each_is_refused<G: Rng<OUTPUT> + Clone, const OUTPUT: usize>(fresh: &G) {
    for taken in 1..OUTPUT {
        for held in [0, 2, 1000, 70_000] {
            is_refused(fresh, taken, held);
        }
    }
}

#[test]
fn read_to_end() {
    each_is_refused(&Steps::new());
    each_is_refused(&WyRand::new_seed(42));
    each_is_refused(&ChaCha20::new_key([1; 32], [2; 8]));
    each_is_refused(chacha_stream::<20>([1; 32], [2; 8]).inner());
}

/// With this spare capacity, the rest of a block fits in a vector without an allocation.
fn fits<G: Rng<OUTPUT>, const OUTPUT: usize>(
    rng: &mut BufferedRng<G, OUTPUT>,
    taken: usize,
    [held, spare]: [usize; 2],
) {
    rng.fill_bytes(&mut vec![0; taken]);
    let left = rng.rest().to_vec();
    let mut out = Vec::with_capacity(held + left.len() + spare);
    out.resize(held, 7);
    let room = out.capacity();
    let count = without_memory(|| rng.read_to_end(&mut out)).expect("room");
    assert_eq!((count, out.capacity()), (left.len(), room));
    assert_eq!(out[held..], left);
}

/// With enough spare capacity, or nothing buffered, there is no allocation to refuse.
#[test]
fn read_to_end_without_an_allocation() {
    let mut stream = chacha_stream::<20>([1; 32], [2; 8]);
    for taken in 1..=512 {
        fits(&mut stream, taken, [3, 0]);
    }
    let mut rng = BufferedRng::new(ChaCha20::new_key([1; 32], [2; 8]));
    for held in [0, 1, 1000] {
        for spare in (0..=24).map(|bit| (1 << bit) - 1) {
            fits(&mut rng, 5, [held, spare]);
        }
    }
    let mut none = Vec::new();
    let count = without_memory(|| rng.read_to_end(&mut none)).expect("nothing to append");
    assert_eq!(count, 0);
}

/// No other call allocates.
#[test]
fn calls_without_memory() -> Result<(), RangeError> {
    let mut items = rising(100);
    let mut places = [0; 10];
    let mut bytes = [0; 1000];
    without_memory(|| {
        let mut rng = BufferedRng::new(WyRand::new_seed(42));
        rng.fill_bytes(&mut bytes);
        rng.shuffle(&mut items)?;
        shuffle_full(&mut rng, &mut items)?;
        sample(&mut rng, 100, &mut places)?;
        let copy = rng.clone();
        let number: u64 = rng.generate_range(..1000)?;
        let _ = (copy == rng, number);
        Ok::<(), RangeError>(())
    })?;
    items.sort_unstable();
    assert_eq!(items, rising(100));
    Ok(())
}

/// The method uses a table if all memory for it can be allocated, and draws the same numbers
/// without it.
#[test]
fn samples_with_any_memory() {
    for slots in [16, 17, 100, 1000] {
        let mut wanted = vec![0; slots];
        let mut last = WyRand::new_seed(42);
        assert_eq!(sample(&mut last, 100_000, &mut wanted), Ok(()));
        let item = std::mem::size_of::<usize>();
        for most in (0..4 * slots * item).step_by(slots * item / 16) {
            let mut places = vec![0; slots];
            let mut rng = WyRand::new_seed(42);
            let drawn = with_memory(most, || rng.sample(100_000, &mut places));
            assert_eq!((drawn, &places, &rng), (Ok(()), &wanted, &last), "{most}");
        }
    }
}

/// A call frees what it allocates for itself.
#[test]
fn nothing_is_left_behind() {
    let mut rng = WyRand::new_seed(42);
    for slots in [1, 15, 16, 17, 1000] {
        let mut places = vec![0; slots];
        for most in [0, 100, 1000, usize::MAX] {
            let before = HELD.with(Cell::get);
            with_memory(most, || rng.sample(100_000, &mut places)).expect("a sample");
            assert_eq!(HELD.with(Cell::get), before, "{slots}, {most}");
        }
    }
    let mut out = Vec::with_capacity(1000);
    let before = HELD.with(Cell::get);
    BufferedRng::new(ChaCha20::new_key([1; 32], [2; 8]))
        .read_to_end(&mut out)
        .expect("nothing to append");
    assert_eq!(HELD.with(Cell::get), before);
}
