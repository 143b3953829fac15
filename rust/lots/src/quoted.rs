//! Bytes as a text in quotation marks, with escapes for hidden characters.

/// Whether a character is hidden: a control or format character, a space other than the plain one,
/// a character of private use, or another one that does not show. The table is fixed: it does not
/// follow the version of Unicode.
fn is_hidden(letter: char) -> bool {
    matches!(letter,
        '\0'..='\u{1f}' | '\u{7f}'..='\u{a0}' | '\u{ad}' | '\u{34f}' | '\u{600}'..='\u{605}'
        | '\u{61c}' | '\u{6dd}' | '\u{70f}' | '\u{890}'..='\u{891}' | '\u{8e2}'
        | '\u{115f}'..='\u{1160}' | '\u{1680}' | '\u{17b4}'..='\u{17b5}' | '\u{180b}'..='\u{180f}'
        | '\u{2000}'..='\u{200f}' | '\u{2028}'..='\u{202f}' | '\u{205f}'..='\u{206f}' | '\u{2800}'
        | '\u{3000}' | '\u{3164}' | '\u{e000}'..='\u{f8ff}' | '\u{fdd0}'..='\u{fdef}'
        | '\u{fe00}'..='\u{fe0f}' | '\u{feff}' | '\u{ffa0}' | '\u{fff0}'..='\u{ffff}'
        | '\u{110bd}' | '\u{110cd}' | '\u{13430}'..='\u{1343f}' | '\u{1bca0}'..='\u{1bca3}'
        | '\u{1d173}'..='\u{1d17a}' | '\u{e0000}'..='\u{10ffff}')
}

/// Appends a byte as a backslash, an x and two hexadecimal digits.
fn push_escape(text: &mut String, byte: u8) -> Result<(), std::collections::TryReserveError> {
    write!(crate::growing::Growing(text), "\\x{byte:02x}")
}

/// Appends the escape of each byte.
fn push_escapes(text: &mut String, bytes: &[u8]) -> Result<(), std::collections::TryReserveError> {
    for byte in bytes {
        push_escape(text, *byte)?;
    }
    Ok(())
}

/// Appends a character, escaped if it is a backslash or hidden.
fn push_letter(text: &mut String, letter: char) -> Result<(), std::collections::TryReserveError> {
    if letter == '\\' || is_hidden(letter) {
        return push_escapes(text, letter.encode_utf8(&mut [0; 4]).as_bytes());
    }
    text.try_reserve(letter.len_utf8())?;
    text.push(letter);
    Ok(())
}

/// Appends a byte of a list that is not UTF-8: a printable ASCII character except the backslash as
/// it is, any other byte escaped.
#[allow(clippy::manual_range_contains)] // the proved body is so
fn push_byte(text: &mut String, byte: u8) -> Result<(), std::collections::TryReserveError> {
    if byte == b'\\' || byte < b' ' || b'~' < byte {
        return push_escape(text, byte);
    }
    text.try_reserve(1)?;
    text.push(byte as char);
    Ok(())
}

/// Appends the characters of a text.
fn push_letters(text: &mut String, letters: &str) -> Result<(), std::collections::TryReserveError> {
    for letter in letters.chars() {
        push_letter(text, letter)?;
    }
    Ok(())
}

/// Appends bytes that are not UTF-8.
fn push_bytes(text: &mut String, bytes: &[u8]) -> Result<(), std::collections::TryReserveError> {
    for byte in bytes {
        push_byte(text, *byte)?;
    }
    Ok(())
}

/// Appends bytes, with escapes for hidden characters.
fn push_shown(text: &mut String, bytes: &[u8]) -> Result<(), std::collections::TryReserveError> {
    match std::str::from_utf8(bytes) {
        Ok(letters) => push_letters(text, letters),
        Err(_) => push_bytes(text, bytes),
    }
}

/// Appends bytes in quotation marks, with escapes for hidden characters.
pub fn push_quoted(
    text: &mut String,
    bytes: &[u8],
) -> Result<(), std::collections::TryReserveError> {
    text.try_reserve(1)?;
    text.push('"');
    push_shown(text, bytes)?;
    text.try_reserve(1)?;
    text.push('"');
    Ok(())
}
