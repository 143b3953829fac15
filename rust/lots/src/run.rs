//! The whole run, from the arguments and the list to the text that is written.

use crate::arguments::{read, Request};
use crate::error::LotsError;
use crate::selection::draw_lines;
use crate::text::text_of;
use std::io::{ErrorKind, Read, Write};

/// Returns all bytes of the reader.
///
/// # Errors
///
/// Returns `Memory` if an allocation fails, and `Read` if a read fails.
pub fn read_list<R: Read>(input: &mut R) -> Result<Vec<u8>, LotsError> {
    let mut list = Vec::new();
    match crate::reading::read_to_end(input, &mut list) {
        Ok(_) => Ok(list),
        Err(error) if error.kind() == ErrorKind::OutOfMemory => Err(LotsError::Memory),
        Err(_) => Err(LotsError::Read),
    }
}

/// Returns the text of the selection that the request makes from the list, or the error.
fn select(request: &Request<'_>, list: &[u8]) -> Result<Vec<u8>, LotsError> {
    let (entrants, count) = draw_lines(request.seed, request.count, list)?;
    Ok(text_of(&entrants[..count])?)
}

/// Draws what the arguments ask for from the list that `input` provides, writes the selection to
/// `out`, all at once, and then flushes. The arguments do not include the name of the program.
///
/// Everything is read and drawn before anything is written.
///
/// # Errors
///
/// Returns the errors that [`LotsError`] lists. After `Write`, how much of the text `out` accepted
/// is unspecified. After any other error, nothing was written.
pub fn run<R: Read, W: Write>(
    arguments: &[String],
    input: &mut R,
    out: &mut W,
) -> Result<(), LotsError> {
    let request = read(arguments).ok_or(LotsError::Usage)?;
    let list = read_list(input)?;
    let text = select(&request, &list)?;
    out.write_all(&text).map_err(|_| LotsError::Write)?;
    out.flush().map_err(|_| LotsError::Write)
}

/// Returns the exit status of a result. If the result is an error, it is written as one line to
/// `err`; a failure to write that line is ignored.
pub fn report<W: Write>(outcome: Result<(), LotsError>, err: &mut W) -> u8 {
    let error = if let Err(error) = outcome {
        error
    } else {
        return 0;
    };
    let _ = writeln!(err, "lots: {error}");
    error.status()
}
