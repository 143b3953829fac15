//! Reads back what a record is made from.

use crate::arguments::{count_of, Count};
use crate::check_error::CheckError;
use crate::line_end;
use crate::sha256;

/// Returns the value of a hexadecimal digit.
#[allow(clippy::cast_possible_truncation)] // it is below 16
fn digit(letter: u8) -> Option<u8> {
    Some((letter as char).to_digit(16)? as u8)
}

/// Returns the first byte that a text spells, and the text after it.
fn first_byte(text: &[u8]) -> Option<(u8, &[u8])> {
    match text {
        [b'\\', b'x', high, low, rest @ ..] => Some((16 * digit(*high)? + digit(*low)?, rest)),
        [b'\\', ..] | [] => None,
        [byte, rest @ ..] => Some((*byte, rest)),
    }
}

/// Returns the bytes that a text spells.
fn spelled(text: &[u8]) -> Result<Vec<u8>, CheckError> {
    let mut bytes = Vec::new();
    let mut rest = text;
    while !rest.is_empty() {
        let (byte, after) = if let Some((byte, after)) = first_byte(rest) {
            (byte, after)
        } else {
            return Err(CheckError::Unreadable);
        };
        bytes.try_reserve(1)?;
        bytes.push(byte);
        rest = after;
    }
    Ok(bytes)
}

/// Returns the bytes that a text in quotation marks shows.
pub fn unquoted(text: &[u8]) -> Result<Vec<u8>, CheckError> {
    if text.len() < 2 {
        return Err(CheckError::Unreadable);
    }
    spelled(&text[1..text.len() - 1])
}

/// Returns the value of the first line, if the line begins with the name, and the text after it.
fn first_value<'a>(text: &'a [u8], name: &[u8]) -> Option<(&'a [u8], &'a [u8])> {
    let after = text.strip_prefix(name)?;
    let end = line_end(after)?;
    Some((&after[..end], &after[end + 1..]))
}

/// Returns the value of the first line, if the line begins with the name, and the text after it.
/// Otherwise both are empty.
#[allow(clippy::manual_unwrap_or, clippy::manual_unwrap_or_default)] // the proved body is so
pub fn value_after<'a>(text: &'a [u8], name: &[u8]) -> (&'a [u8], &'a [u8]) {
    match first_value(text, name) {
        Some(parts) => parts,
        None => (&[], &[]),
    }
}

/// The values of the lines of a record that say what it is made from. A value is empty if its line
/// is missing.
pub struct Values<'a> {
    pub format: &'a [u8],
    pub announcement: &'a [u8],
    pub seed: &'a [u8],
    pub list: &'a [u8],
    pub drawn: &'a [u8],
    pub program: &'a [u8],
}

/// Returns the values of the first lines of a record.
fn values_of(text: &[u8]) -> Values<'_> {
    let (format, text) = value_after(text, b"nanorand public draw ");
    let (announcement, text) = value_after(text, b"announcement SHA-256: ");
    let (seed, text) = value_after(text, b"seed: ");
    let (list, text) = value_after(text, b"list SHA-256: ");
    let (_, text) = value_after(text, b"entrants: ");
    let (drawn, text) = value_after(text, b"drawn: ");
    let (program, _) = value_after(text, b"module SHA-256: ");
    Values {
        format,
        announcement,
        seed,
        list,
        drawn,
        program,
    }
}

/// Returns the SHA-256 that 64 hexadecimal digits spell.
fn sum_of(digits: &[u8]) -> Option<[u8; 32]> {
    crate::hex::decode(digits)
}

/// Returns the SHA-256 that a text spells, or no SHA-256 (`Some(None)`) if the text is `none`.
#[allow(clippy::option_option)] // the proved body is so
fn announcement_of(text: &[u8]) -> Option<Option<[u8; 32]>> {
    if text == b"none".as_slice() {
        return Some(None);
    }
    Some(Some(sum_of(text)?))
}

/// Returns the SHA-256 that a text spells, or no SHA-256 (`Some(None)`) if the text is empty.
#[allow(clippy::option_option)] // the proved body is so
fn program_of(text: &[u8]) -> Option<Option<[u8; 32]>> {
    if text.is_empty() {
        return Some(None);
    }
    Some(Some(sum_of(text)?))
}

/// Returns the number that decimal digits spell, if it is below 2^64.
pub fn number_of(digits: &[u8]) -> Option<usize> {
    match count_of(std::str::from_utf8(digits).ok()?)? {
        Count::Of(number) => Some(number),
        Count::All => None,
    }
}

/// Whether a record names the SHA-256 of this list.
pub fn names_list(text: &[u8], list: &[u8]) -> bool {
    sum_of(values_of(text).list) == Some(sha256::digest(list))
}

/// What a record says that it is made from.
pub struct Claims {
    pub seed: Vec<u8>,
    pub count: usize,
    pub announcement: Option<[u8; 32]>,
    pub program: Option<[u8; 32]>,
}

/// Reads what a record says that it is made from.
pub fn claims_of(text: &[u8]) -> Result<Claims, CheckError> {
    let values = values_of(text);
    if values.format != b"2".as_slice() {
        return Err(CheckError::Unreadable);
    }
    let count = number_of(values.drawn).ok_or(CheckError::Unreadable)?;
    let announcement = announcement_of(values.announcement).ok_or(CheckError::Unreadable)?;
    let program = program_of(values.program).ok_or(CheckError::Unreadable)?;
    let seed = unquoted(values.seed)?;
    Ok(Claims {
        seed,
        count,
        announcement,
        program,
    })
}
