//! The errors of a draw.

/// The reasons why nothing was drawn, or why the selection was not written.
#[derive(Clone, Copy, Debug, PartialEq, Eq)]
pub enum LotsError {
    /// The arguments are not a seed and a count. Nothing was read.
    Usage,
    /// There are fewer entrants than were asked for.
    TooFew {
        /// The number of entrants.
        entrants: usize,
        /// The number of entrants that were asked for.
        count: usize,
    },
    /// A line is empty. The value is the number of the first such line, counted from 1.
    EmptyLine(usize),
    /// Out of memory: an allocation failed.
    Memory,
    /// The reader returned an error.
    Read,
    /// The writer returned an error, or accepted 0 bytes. How much of the text it accepted is
    /// unspecified.
    Write,
    /// 128 words (random integers of 64 bits) in a row were rejected for one place. For each place,
    /// the probability is below 2^-128.
    Exhausted,
}

impl core::fmt::Display for LotsError {
    fn fmt(&self, f: &mut core::fmt::Formatter<'_>) -> core::fmt::Result {
        match self {
            LotsError::Usage => f.write_str("usage: lots SEED COUNT|all < entrants"),
            LotsError::TooFew { entrants, count } => {
                write!(f, "{entrants} entrants, {count} asked for")
            }
            LotsError::EmptyLine(field) => write!(f, "line {field} is empty"),
            LotsError::Memory => f.write_str("no memory"),
            LotsError::Read => f.write_str("read failed"),
            LotsError::Write => f.write_str("write failed"),
            LotsError::Exhausted => f.write_str("128 words were rejected"),
        }
    }
}

#[cfg(feature = "std")]
impl std::error::Error for LotsError {}

impl LotsError {
    /// Returns the exit status for the error.
    #[must_use]
    pub fn status(self) -> u8 {
        match self {
            LotsError::Usage => 2,
            LotsError::TooFew { .. } => 3,
            LotsError::EmptyLine(_) => 4,
            LotsError::Memory => 5,
            LotsError::Read => 6,
            LotsError::Write => 7,
            LotsError::Exhausted => 8,
        }
    }
}

#[cfg(feature = "std")]
impl From<std::collections::TryReserveError> for LotsError {
    fn from(_error: std::collections::TryReserveError) -> LotsError {
        LotsError::Memory
    }
}
