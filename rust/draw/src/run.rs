//! The whole run, from the command-line arguments to the text that is written.

use crate::command::{read, Command};
use crate::error::DrawError;
use crate::generators::replay_seeded;
use crate::text::text_of;
use nanorand_proved::replay::Answer;
use std::io::Write;

/// Returns the initial items: the numbers 0, 1, .. below `count`.
fn items_below(count: u64) -> Result<Vec<u64>, std::collections::TryReserveError> {
    let mut items = Vec::new();
    for item in 0..count {
        items.try_reserve(1)?;
        items.push(item);
    }
    Ok(items)
}

/// Runs the command and returns the text to write.
fn text_of_command(command: &Command) -> Result<String, std::collections::TryReserveError> {
    let mut items = items_below(command.count)?;
    let calls = command.calls.as_slice();
    let mut answers = Vec::new();
    answers.try_reserve(calls.len())?;
    answers.resize(calls.len(), Answer::Truth(false));
    replay_seeded(
        command.generator,
        command.mode,
        calls,
        &mut items,
        &mut answers,
    );
    text_of(&answers, &items)
}

/// Parses and runs the arguments, and returns the text to write, or the error `BadWord` or
/// `Memory`.
fn text_for_arguments(arguments: &[String]) -> Result<String, DrawError> {
    let command = read(arguments)?;
    Ok(text_of_command(&command)?)
}

/// Writes the whole text, and then flushes. `Write` is its only error.
fn write_text<W: Write>(out: &mut W, text: &str) -> Result<(), DrawError> {
    out.write_all(text.as_bytes())
        .map_err(|_| DrawError::Write)?;
    out.flush().map_err(|_| DrawError::Write)
}

/// Writes the text that the arguments ask for, all at once, and then flushes. The arguments do not
/// include the name of the program.
///
/// # Errors
///
/// Returns `BadWord` if an argument cannot be read, `Memory` if an allocation fails, and `Write` if
/// writing fails. After `Write`, how much of the text `out` accepted is unspecified. After any
/// other error, nothing was written.
pub fn run<W: Write>(arguments: &[String], out: &mut W) -> Result<(), DrawError> {
    let text = text_for_arguments(arguments)?;
    write_text(out, text.as_str())
}

/// Returns the exit status of a result. If the result is an error, it is written as one line to
/// `err`; a failure to write that line is ignored.
pub fn report<W: Write>(outcome: Result<(), DrawError>, err: &mut W) -> u8 {
    let error = if let Err(error) = outcome {
        error
    } else {
        return 0;
    };
    let _ = writeln!(err, "draw: {error}");
    match error {
        DrawError::BadWord(_) => 2,
        DrawError::Memory => 3,
        DrawError::Write => 4,
    }
}
