//! The entrants of a list, which are its lines.

use crate::error::LotsError;

/// Returns the index of the first line feed, if there is one.
pub fn line_end(text: &[u8]) -> Option<usize> {
    text.iter().position(|byte| *byte == b'\n')
}

/// Returns the first line of a text, without its line feed, and the text after it.
fn first_line(text: &[u8]) -> (&[u8], &[u8]) {
    match line_end(text) {
        Some(end) => (&text[..end], &text[end + 1..]),
        None => (text, &[]),
    }
}

/// Returns the entrants of a list, one for each line: the bytes of the line without its line feed,
/// which the last line need not have. Equal lines are separate entrants.
///
/// # Errors
///
/// Returns `EmptyLine` with the number of the first empty line, counted from 1, or `Memory` if an
/// allocation fails.
#[cfg(feature = "std")]
pub fn entrants_of(list: &[u8]) -> Result<Vec<&[u8]>, LotsError> {
    let mut entrants = Vec::new();
    let mut rest = list;
    while !rest.is_empty() {
        let (line, after) = first_line(rest);
        if line.is_empty() {
            return Err(LotsError::EmptyLine(entrants.len() + 1));
        }
        entrants.try_reserve(1)?;
        entrants.push(line);
        rest = after;
    }
    Ok(entrants)
}

/// Returns the number of entrants of a list, as `entrants_of` counts them. Nothing is allocated.
///
/// # Errors
///
/// Returns `EmptyLine`, the only error, as `entrants_of` does.
pub fn count_entrants(list: &[u8]) -> Result<usize, LotsError> {
    let mut count = 0;
    let mut left = list;
    while !left.is_empty() {
        let (line, after) = first_line(left);
        count += 1;
        if line.is_empty() {
            return Err(LotsError::EmptyLine(count));
        }
        left = after;
    }
    Ok(count)
}
