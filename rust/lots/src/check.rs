//! The check of a record.

use crate::announcement::is_announcement;
use crate::arguments::Count;
use crate::check_error::CheckError;
use crate::claims::{claims_of, names_list, Claims};
use crate::record::{record, Source};
use crate::sha256;
use crate::{count_entrants, LotsError};

/// Whether the record names this announcement, if one is given.
fn names(claims: &Claims, announcement: Option<&[u8]>) -> bool {
    match announcement {
        Some(announcement) => claims.announcement == Some(sha256::digest(announcement)),
        None => true,
    }
}

/// Whether the announcement, if one is given, is that of a draw of `count` entrants from the list.
///
/// The list has to have `entrants` entrants, as `count_entrants` counts them.
///
/// # Errors
///
/// Returns `Memory`, the only error, if an allocation fails.
pub fn is_announced(
    announcement: Option<&[u8]>,
    list: &[u8],
    entrants: usize,
    count: usize,
) -> Result<bool, LotsError> {
    match announcement {
        Some(text) => is_announcement(text, list, entrants, count),
        None => Ok(true),
    }
}

/// Checks that the text is, byte for byte, the record of a draw from the list: the function reads
/// from the text what a record is made from, makes the record again, and compares the two. If an
/// announcement is given, the record has to name its SHA-256, and the announcement has to be that
/// of a draw from the list of as many entrants as the record says.
///
/// # Errors
///
/// Returns the reason if the text is not such a record, and the error of the draw if the draw
/// fails. A true record of a draw from this list is refused only with `OtherAnnouncement` if it
/// does not name the announcement, with `NotAnnounced` if the announcement is not that of the draw,
/// or with `Memory`.
pub fn check(text: &[u8], announcement: Option<&[u8]>, list: &[u8]) -> Result<(), CheckError> {
    let entrants = count_entrants(list)?;
    let claims = claims_of(text)?;
    if !names_list(text, list) {
        return Err(CheckError::OtherList);
    }
    if !names(&claims, announcement) {
        return Err(CheckError::OtherAnnouncement);
    }
    if !is_announced(announcement, list, entrants, claims.count)? {
        return Err(CheckError::NotAnnounced);
    }
    let seed = std::str::from_utf8(&claims.seed).map_err(|_| CheckError::Unreadable)?;
    if seed.is_empty() {
        return Err(CheckError::Unreadable);
    }
    let source = Source {
        seed,
        count: Count::Of(claims.count),
        announcement: claims.announcement,
        program: claims.program,
    };
    if record(&source, list)?.as_bytes() == text {
        Ok(())
    } else {
        Err(CheckError::Differs)
    }
}
