//! Numbers in the command-line arguments.

mod signed;
mod unsigned;

/// A number type that has ranges, and whose numbers can be read from text.
pub trait ReadNumber: Sized {
    /// Returns the number that the text gives, or `None` if it is not a number of this type.
    fn read(text: &str) -> Option<Self>;
}

/// Reads an unsigned number: decimal digits. Leading zeros are allowed, a plus sign is not.
#[must_use]
pub fn read_unsigned(text: &str) -> Option<u64> {
    if text.starts_with('+') {
        return None;
    }
    text.parse().ok()
}

/// Reads a signed number: decimal digits after at most one minus sign. Leading zeros are allowed, a
/// plus sign is not.
#[must_use]
pub fn read_signed(text: &str) -> Option<i64> {
    if text.starts_with('+') {
        return None;
    }
    text.parse().ok()
}
