//! The text of the entrants drawn.

/// Returns the text of the lines, each ended by a line feed.
///
/// # Errors
///
/// Returns an error if an allocation fails.
pub fn text_of(lines: &[&[u8]]) -> Result<Vec<u8>, std::collections::TryReserveError> {
    let mut text = Vec::new();
    for line in lines {
        text.try_reserve(line.len())?;
        text.extend_from_slice(line);
        text.try_reserve(1)?;
        text.push(b'\n');
    }
    Ok(text)
}
