//! An allocator that fails on demand. Code that does not handle a failed allocation then aborts the
//! test's process.
#![warn(unsafe_op_in_unsafe_fn)] // for cargo 1.63, which reads no lints from Cargo.toml

use std::alloc::{GlobalAlloc, Layout, System};
use std::cell::Cell;
use std::ptr::null_mut;

struct Refusing;

#[global_allocator]
static ALLOCATOR: Refusing = Refusing;

thread_local! {
    /// The number of this thread's allocations that succeed.
    static GRANTED: Cell<usize> = const { Cell::new(usize::MAX) };
    /// The number of this thread's allocations that fail after those.
    static REFUSED: Cell<usize> = const { Cell::new(usize::MAX) };
    /// The size in bytes of this thread's largest allocation that succeeds.
    static MOST: Cell<usize> = const { Cell::new(usize::MAX) };
}

/// What the call returns if all allocations fail after `requests` successful ones.
pub fn refused_after<T>(requests: usize, call: impl FnOnce() -> T) -> T {
    GRANTED.with(|granted| granted.set(requests));
    let result = call();
    GRANTED.with(|granted| granted.set(usize::MAX));
    result
}

/// What the call returns if one allocation fails, after `requests` successful ones.
pub fn refused_once<T>(requests: usize, call: impl FnOnce() -> T) -> T {
    REFUSED.with(|refused| refused.set(1));
    let result = refused_after(requests, call);
    REFUSED.with(|refused| refused.set(usize::MAX));
    result
}

/// What the call returns if every allocation of more than `most` bytes fails.
pub fn refused_above<T>(most: usize, call: impl FnOnce() -> T) -> T {
    MOST.with(|granted| granted.set(most));
    let result = call();
    MOST.with(|granted| granted.set(usize::MAX));
    result
}

/// Takes one from the count and returns `true`, unless the count is 0.
fn takes_one(count: &Cell<usize>) -> bool {
    let left = count.get();
    count.set(left.saturating_sub(1));
    left > 0
}

/// Whether an allocation of `size` bytes succeeds.
fn granted(size: usize) -> bool {
    (GRANTED.with(takes_one) || !REFUSED.with(takes_one)) && size <= MOST.with(Cell::get)
}

// SAFETY: the system's allocator serves successful allocations, with the same arguments.
unsafe impl GlobalAlloc for Refusing {
    unsafe fn alloc(&self, layout: Layout) -> *mut u8 {
        if granted(layout.size()) {
            // SAFETY: `System` needs what the caller of this function guarantees.
            unsafe { System.alloc(layout) }
        } else {
            null_mut()
        }
    }

    unsafe fn realloc(&self, place: *mut u8, layout: Layout, size: usize) -> *mut u8 {
        if granted(size) {
            // SAFETY: `System` needs what the caller of this function guarantees, and `place` is from
            // it, like every allocation.
            unsafe { System.realloc(place, layout, size) }
        } else {
            null_mut()
        }
    }

    unsafe fn dealloc(&self, place: *mut u8, layout: Layout) {
        // SAFETY: `System` needs what the caller of this function guarantees, and `place` is from it,
        // like every allocation.
        unsafe { System.dealloc(place, layout) }
    }
}
