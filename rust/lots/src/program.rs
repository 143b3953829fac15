//! The commands that write and check a record, from the list to the text that is written.

use crate::announcement::{announcement, Plan};
use crate::arguments::Request;
use crate::check::{check, is_announced};
use crate::check_error::CheckError;
use crate::record::{record, Source};
use crate::run::read_list;
use crate::sha256;
use crate::{count_entrants, LotsError};
use std::io::{Read, Write};

/// What `lots --help` writes.
pub const HELP: &str = "\
usage: lots SEED COUNT|all < entrants
       lots --announce OCCASION WINNERS RESERVES SOURCE FORM EXAMPLE TIME < entrants
       lots --record SEED COUNT|all [ANNOUNCEMENT] < entrants
       lots --check RECORD [ANNOUNCEMENT] < entrants
       lots --version
       lots --help

Draws COUNT of the entrants, one per line of standard input, as the seed determines, and writes them
in the order drawn. `--announce` writes an announcement, to be published before the seed is known:
what is drawn for, how many winners and reserves, where the seed will come from, its form, a seed of
this form, and the time. `--record` writes the record of the draw. `--check` draws again: its status
is 0 only if the file RECORD is the record of a draw from these entrants. If a file ANNOUNCEMENT is
given, the record names its SHA-256, and it has to be the announcement of such a draw, whose winners
and reserves are COUNT together. A seed and a count are always a draw: write ./2026 for a file of
that name.
";

/// Writes a text to `out`, all at once, and then flushes. After an error, how much of the text
/// `out` accepted is unspecified.
///
/// # Errors
///
/// Returns `Write`, the only error, if writing or flushing fails.
pub fn write_text<W: Write>(text: &[u8], out: &mut W) -> Result<(), LotsError> {
    out.write_all(text).map_err(|_| LotsError::Write)?;
    out.flush().map_err(|_| LotsError::Write)
}

/// Returns the SHA-256 of the announcement, if there is one.
#[allow(clippy::manual_map)] // the proved body is so
fn sum_of(announcement: Option<&[u8]>) -> Option<[u8; 32]> {
    match announcement {
        Some(text) => Some(sha256::digest(text)),
        None => None,
    }
}

/// Draws what the request asks for from the list that `input` provides, writes the record to `out`,
/// all at once, and then flushes. The record names the SHA-256 of the announcement, if there is
/// one.
///
/// Everything is read and drawn before anything is written.
///
/// # Errors
///
/// Returns `NotAnnounced` if the announcement is not that of a draw of as many entrants from this
/// list, and otherwise the errors that [`LotsError`] lists, except `Usage`. After `Write`, how much
/// of the text `out` accepted is unspecified. After any other error, nothing was written.
pub fn write_record<R: Read, W: Write>(
    request: &Request<'_>,
    announcement: Option<&[u8]>,
    input: &mut R,
    out: &mut W,
) -> Result<(), CheckError> {
    let list = read_list(input)?;
    let entrants = count_entrants(&list)?;
    let count = request.count.among(entrants);
    if !is_announced(announcement, &list, entrants, count)? {
        return Err(CheckError::NotAnnounced);
    }
    let source = Source {
        seed: request.seed,
        count: request.count,
        announcement: sum_of(announcement),
        program: None,
    };
    let text = record(&source, &list)?;
    write_text(text.as_bytes(), out)?;
    Ok(())
}

/// Writes the announcement of a draw from the list that `input` provides to `out`, all at once, and
/// then flushes.
///
/// # Errors
///
/// Returns the errors of `announcement`, `Read` and `Write`. After `Write`, how much of the text
/// `out` accepted is unspecified. After any other error, nothing was written.
pub fn write_announcement<R: Read, W: Write>(
    plan: &Plan<'_>,
    input: &mut R,
    out: &mut W,
) -> Result<(), LotsError> {
    let list = read_list(input)?;
    let text = announcement(plan, &list)?;
    write_text(text.as_bytes(), out)
}

/// The line that says that a record agrees.
fn agreement(announcement: Option<&[u8]>) -> &'static str {
    match announcement {
        Some(_) => "the record agrees with the list, and names the announcement\n",
        None => "the record agrees with the list; no announcement was compared\n",
    }
}

/// Checks a record with the list that `input` provides, and with the announcement, if one is given.
/// If it agrees, a line that says so is written to `out`, which is then flushed.
///
/// # Errors
///
/// Returns the reason if the record does not agree. After `Write`, how much of the line `out`
/// accepted is unspecified. After any other error, nothing was written.
pub fn check_record<R: Read, W: Write>(
    text: &[u8],
    announcement: Option<&[u8]>,
    input: &mut R,
    out: &mut W,
) -> Result<(), CheckError> {
    let list = read_list(input)?;
    check(text, announcement, &list)?;
    write_text(agreement(announcement).as_bytes(), out)?;
    Ok(())
}

/// Returns the exit status of a check. If the result is an error, it is written as one line to
/// `err`; a failure to write that line is ignored.
pub fn report_check<W: Write>(outcome: Result<(), CheckError>, err: &mut W) -> u8 {
    let error = if let Err(error) = outcome {
        error
    } else {
        return 0;
    };
    let _ = writeln!(err, "lots: {error}");
    error.status()
}
