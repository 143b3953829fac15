//! Appends formatted text to a string and returns an error if memory runs out, where std would
//! abort the process.

use std::collections::TryReserveError;
use std::fmt::{self, Arguments, Write};

/// A string that `write!` and `writeln!` append to.
pub struct Growing<'a>(pub &'a mut String);

impl Growing<'_> {
    /// Appends the formatted arguments. The macros call this method.
    pub fn write_fmt(self, arguments: Arguments<'_>) -> Result<(), TryReserveError> {
        let mut asking = Asking {
            text: self.0,
            refusal: None,
        };
        // Formatting a number or a text fails only if appending fails, and then `refusal` holds the
        // error.
        let _ = asking.write_fmt(arguments);
        asking.refusal.map_or(Ok(()), Err)
    }
}

/// Reserves the room for each piece before it appends the piece.
struct Asking<'a> {
    text: &'a mut String,
    refusal: Option<TryReserveError>,
}

impl Write for Asking<'_> {
    fn write_str(&mut self, piece: &str) -> fmt::Result {
        if let Err(refusal) = self.text.try_reserve(piece.len()) {
            self.refusal = Some(refusal);
            return Err(fmt::Error);
        }
        self.text.push_str(piece);
        Ok(())
    }
}
