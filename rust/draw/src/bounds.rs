//! The two bounds of a range, written as LOW..HIGH or LOW..=HIGH.

use crate::numbers::ReadNumber;
use core::ops::Bound;

/// Returns the bounds that the text gives, or `None` if it gives none. A missing bound is
/// unbounded.
#[must_use]
pub fn bounds<N: ReadNumber>(text: &str) -> Option<(Bound<N>, Bound<N>)> {
    let (low, high) = text.split_once("..")?;
    Some((low_bound(low)?, high_bound(high)?))
}

/// Reads the low bound, which is the text before the dots. It is included in the range.
fn low_bound<N: ReadNumber>(text: &str) -> Option<Bound<N>> {
    if text.is_empty() {
        return Some(Bound::Unbounded);
    }
    Some(Bound::Included(N::read(text)?))
}

/// Reads the high bound, which is the text after the dots. It is included in the range if the text
/// begins with `=`, and excluded otherwise.
fn high_bound<N: ReadNumber>(text: &str) -> Option<Bound<N>> {
    if text.is_empty() {
        return Some(Bound::Unbounded);
    }
    match text.strip_prefix('=') {
        Some(greatest) => Some(Bound::Included(N::read(greatest)?)),
        None => Some(Bound::Excluded(N::read(text)?)),
    }
}
