//! Hexadecimal text, with two digits for each byte.

use std::collections::TryReserveError;

/// The digits that `encode` writes.
const DIGITS: [char; 16] = [
    '0', '1', '2', '3', '4', '5', '6', '7', '8', '9', 'a', 'b', 'c', 'd', 'e', 'f',
];

/// Returns the bytes as lower-case digits, or an error if the allocation fails.
pub fn encode(bytes: &[u8]) -> Result<String, TryReserveError> {
    let mut text = String::new();
    for byte in bytes {
        text.try_reserve(2)?;
        text.push(DIGITS[usize::from(byte >> 4)]);
        text.push(DIGITS[usize::from(byte & 15)]);
    }
    Ok(text)
}

/// Returns the bytes that the digits spell, in upper or lower case, or `None` if there are not two
/// digits for each of `SIZE` bytes.
pub fn decode<const SIZE: usize>(digits: &[u8]) -> Option<[u8; SIZE]> {
    if digits.len() != 2 * SIZE {
        return None;
    }
    let mut bytes = [0; SIZE];
    for (byte, pair) in bytes.iter_mut().zip(digits.chunks_exact(2)) {
        *byte = 16 * value_of(pair[0])? + value_of(pair[1])?;
    }
    Some(bytes)
}

/// Returns the value of a digit.
fn value_of(digit: u8) -> Option<u8> {
    char::from(digit).to_digit(16)?.try_into().ok()
}
