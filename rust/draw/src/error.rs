//! The errors of a run.

/// The reasons why `run` failed.
#[derive(Clone, Copy, Debug, PartialEq, Eq)]
pub enum DrawError {
    /// An argument cannot be read. The value is the number of the first such argument, counted from
    /// 1; a missing argument among the first four counts as one. Nothing was written.
    BadWord(usize),
    /// Out of memory: an allocation failed. Nothing was written.
    Memory,
    /// The writer returned an error, or accepted 0 bytes. How much of the text it accepted is
    /// unspecified.
    Write,
}

impl core::fmt::Display for DrawError {
    fn fmt(&self, f: &mut core::fmt::Formatter<'_>) -> core::fmt::Result {
        match self {
            DrawError::BadWord(field) => write!(f, "bad word {field}"),
            DrawError::Memory => f.write_str("no memory"),
            DrawError::Write => f.write_str("write failed"),
        }
    }
}

impl std::error::Error for DrawError {}

impl From<std::collections::TryReserveError> for DrawError {
    fn from(_error: std::collections::TryReserveError) -> DrawError {
        DrawError::Memory
    }
}
