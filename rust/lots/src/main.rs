//! Draws by lot from a list, so that anyone can repeat the draw: `lots SEED COUNT|all < entrants`.
//!
//! - SEED is any non-empty text.
//! - COUNT is the number of entrants to draw, in decimal digits; `all` draws all of them.
//! - The entrants are the lines of standard input. No line may be empty.
//!
//! It prints the entrants drawn, one on each line, in the order in which they were drawn. The exit
//! status is 0 on success, 2 if the arguments are none of the commands on this page, 3 if there are
//! too few entrants, 4 if a line is empty, 5 if memory runs out, 6 if a read failed, 7 if a write
//! failed, and 8 if 128 words (random integers of 64 bits) in a row were rejected.
//!
//! `lots --announce OCCASION WINNERS RESERVES SOURCE FORM EXAMPLE TIME < entrants` prints an
//! announcement, which is published before the seed is known. `lots --record SEED COUNT|all
//! [ANNOUNCEMENT] < entrants` prints the record of the draw, which names the SHA-256 of the file
//! ANNOUNCEMENT; the status is 12 if that file is not the announcement of this draw. `lots --check
//! RECORD [ANNOUNCEMENT] < entrants` draws again, and compares. Its status is
//!
//! - 0 if the file RECORD is the record of a draw from these entrants; if ANNOUNCEMENT is given,
//!   the record also has to name it, and it has to be the announcement of this draw
//! - 9 if the file RECORD is not a record
//! - 10 if the record names another announcement, or none
//! - 11 if the record names another list, or is not the record of its draw from these entrants
//! - 12 if ANNOUNCEMENT is not the announcement of this draw
//! - otherwise that of the error, as above
//!
//! `lots --version` and `lots --help` print a text. A seed and a count are always a draw, even if
//! the seed is one of these options. So to check a record in a file whose name is `all` or a number,
//! write `lots --check ./all`.
#![forbid(unsafe_code)]

use lots::arguments::Request;
use lots::command::{read_command, Command};
use lots::program::{
    check_record, report_check, write_announcement, write_record, write_text, HELP,
};
use lots::run::{read_list, report, run};
use lots::{CheckError, LotsError};
use nanorand_program::{arguments, input, output};
use std::fs::File;
use std::io::stderr;
use std::process::ExitCode;

/// What `lots --version` prints.
const VERSION: &str = concat!("lots ", env!("CARGO_PKG_VERSION"), "\n");

/// Returns the bytes of the file at the path.
fn read_file(path: &str) -> Result<Vec<u8>, LotsError> {
    let mut file = File::open(path).map_err(|_| LotsError::Read)?;
    read_list(&mut file)
}

/// Writes the record of the draw.
fn record(request: &Request<'_>, announcement: Option<&str>) -> Result<(), CheckError> {
    let announcement = announcement.map(read_file).transpose()?;
    let (input, out) = (&mut input(), &mut output());
    write_record(request, announcement.as_deref(), input, out)
}

/// Checks a record.
fn check(record: &str, announcement: Option<&str>) -> Result<(), CheckError> {
    let record = read_file(record)?;
    let announcement = announcement.map(read_file).transpose()?;
    let (input, out) = (&mut input(), &mut output());
    check_record(&record, announcement.as_deref(), input, out)
}

/// Carries out the command of the arguments, and returns the exit status.
fn status_of(arguments: &[String]) -> u8 {
    let (out, err) = (&mut output(), &mut stderr());
    match read_command(arguments) {
        Command::Draw => report(run(arguments, &mut input(), out), err),
        Command::Announce { plan } => report(write_announcement(&plan, &mut input(), out), err),
        Command::Record {
            request,
            announcement,
        } => report_check(record(&request, announcement), err),
        Command::Check {
            record,
            announcement,
        } => report_check(check(record, announcement), err),
        Command::Version => report(write_text(VERSION.as_bytes(), out), err),
        Command::Help => report(write_text(HELP.as_bytes(), out), err),
    }
}

fn main() -> ExitCode {
    ExitCode::from(match arguments() {
        Some(arguments) => status_of(&arguments),
        None => report(Err(LotsError::Usage), &mut stderr()),
    })
}
