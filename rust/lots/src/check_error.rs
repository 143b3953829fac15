//! The reasons why a record does not agree.

use crate::LotsError;

/// The reasons why a text does not agree with a list as the record of a draw.
#[derive(Clone, Copy, Debug, PartialEq, Eq)]
pub enum CheckError {
    /// The text is not a record of format 2: its first lines, down to the number of entrants drawn
    /// and the module, cannot be read.
    Unreadable,
    /// The record names the SHA-256 of another list.
    OtherList,
    /// The record names another announcement, or none.
    OtherAnnouncement,
    /// The announcement is not that of a draw from the list of as many entrants as are drawn.
    NotAnnounced,
    /// The record is not the one that its draw from this list makes.
    Differs,
    /// The draw that the record describes fails.
    Draw(LotsError),
}

impl core::fmt::Display for CheckError {
    fn fmt(&self, f: &mut core::fmt::Formatter<'_>) -> core::fmt::Result {
        match self {
            CheckError::Unreadable => f.write_str("this is no record of format 2"),
            CheckError::OtherList => f.write_str("the record is that of a draw from another list"),
            CheckError::OtherAnnouncement => {
                f.write_str("the record names another announcement, or none")
            }
            CheckError::NotAnnounced => f.write_str(
                "the announcement does not fit this list and the number of entrants drawn",
            ),
            CheckError::Differs => f.write_str("the record is not that of a draw from this list"),
            CheckError::Draw(field) => write!(f, "{field}"),
        }
    }
}

impl std::error::Error for CheckError {}

impl From<std::collections::TryReserveError> for CheckError {
    fn from(_error: std::collections::TryReserveError) -> CheckError {
        CheckError::Draw(LotsError::Memory)
    }
}

impl From<LotsError> for CheckError {
    fn from(error: LotsError) -> CheckError {
        CheckError::Draw(error)
    }
}

impl CheckError {
    /// Returns the exit status for the error.
    #[must_use]
    pub fn status(self) -> u8 {
        match self {
            CheckError::Draw(error) => error.status(),
            CheckError::Unreadable => 9,
            CheckError::OtherAnnouncement => 10,
            CheckError::OtherList | CheckError::Differs => 11,
            CheckError::NotAnnounced => 12,
        }
    }
}
