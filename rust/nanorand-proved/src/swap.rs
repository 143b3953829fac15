//! Swaps two items of a slice. The proved source has its own function for this, without a branch.
//! Here it is `swap` of std, which branches only to check the two indices.

#[inline]
pub(crate) fn swap<T>(items: &mut [T], a: usize, b: usize) {
    items.swap(a, b);
}
