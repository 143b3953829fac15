//! Sizes for sweeps.

use std::iter::successors;

/// Sizes up to `most`. Up to an eighth of it, each size is at most a tenth above the one before, so
/// that a bug at all sizes from some size to a tenth above it is found. Each power of two is there
/// with its neighbours.
pub fn sizes(most: usize) -> Vec<usize> {
    let dense = most / 8;
    let steps = successors(Some(0), |size: &usize| size.checked_add((size / 11).max(1)));
    let mut sizes: Vec<usize> = steps.take_while(|size| *size <= dense).collect();
    for power in (0..usize::BITS).map(|bit| 1 << bit) {
        if power < most {
            sizes.extend([power - 1, power, power + 1]);
        }
    }
    sizes
}
