//! What the compiler cannot check: where an array of C lies, that bytes are arrays of bytes, and how
//! the process ends. All unsafe code of the library is in this file.

use core::marker::PhantomData;
use core::slice;

/// A C array that a call reads. Its length is another parameter. It may be null if it has no items.
#[repr(transparent)]
pub struct Array<'a, T>(*const T, PhantomData<&'a [T]>);

/// A C array that a call writes. Its length is another parameter. It may be null if it has no
/// items.
#[repr(transparent)]
pub struct ArrayMut<'a, T>(*mut T, PhantomData<&'a mut [T]>);

impl<'a, T> Array<'a, T> {
    /// Returns the items as a slice of the length that the C caller states.
    pub fn items(self, length: usize) -> &'a [T] {
        if length == 0 {
            return &[];
        }
        // SAFETY: only C creates an `Array`. By the header, `length` items are there, and stay
        // until the call ends.
        unsafe { slice::from_raw_parts(self.0, length) }
    }
}

impl<'a, T> ArrayMut<'a, T> {
    /// Returns the items as a slice of the length that the C caller states.
    pub fn items(self, length: usize) -> &'a mut [T] {
        if length == 0 {
            return &mut [];
        }
        // SAFETY: as above, and by the header no other argument of the call overlaps what it
        // writes.
        unsafe { slice::from_raw_parts_mut(self.0, length) }
    }
}

/// Returns the bytes as arrays of `SIZE` bytes, without those after the last whole array.
pub fn arrays<const SIZE: usize>(bytes: &mut [u8]) -> &mut [[u8; SIZE]] {
    let count = bytes.len() / SIZE;
    // SAFETY: the arrays are within the slice, and an array of bytes has the alignment of a byte.
    unsafe { slice::from_raw_parts_mut(bytes.as_mut_ptr().cast(), count) }
}

/// A panic would be a bug of the library. It aborts the process, since C cannot catch it.
#[cfg(not(any(test, target_family = "wasm")))]
#[panic_handler]
fn end(_: &core::panic::PanicInfo) -> ! {
    #[link(name = "c")]
    extern "C" {
        fn abort() -> !;
    }
    // SAFETY: `abort` of C has no preconditions.
    unsafe { abort() }
}

/// WebAssembly has no C library: a panic ends the call, and the page sees an error.
#[cfg(all(not(test), target_family = "wasm"))]
#[panic_handler]
fn end(_: &core::panic::PanicInfo) -> ! {
    core::arch::wasm32::unreachable()
}

#[cfg(test)]
mod tests {
    use super::*;
    use core::ptr;

    #[test]
    fn no_items_may_be_null() {
        assert!(Array::<u64>(ptr::null(), PhantomData).items(0).is_empty());
        assert!(ArrayMut::<u64>(ptr::null_mut(), PhantomData)
            .items(0)
            .is_empty());
    }

    #[test]
    fn items_are_those_of_c() {
        let mut items = [1, 2, 3, 4];
        ArrayMut(items.as_mut_ptr(), PhantomData).items(3).fill(7);
        assert_eq!(Array(items.as_ptr(), PhantomData).items(4), [7, 7, 7, 4]);
    }

    #[test]
    fn arrays_are_whole() {
        assert_eq!(arrays::<2>(&mut [1, 2, 3, 4, 5]), [[1, 2], [3, 4]]);
        assert!(arrays::<8>(&mut [1; 7]).is_empty());
    }
}
