//! Records that are written to and checked with readers and writers that fail.

#[path = "common/records.rs"]
mod records;
#[path = "common/writer.rs"]
mod writer;

use lots::arguments::{Count, Request};
use lots::program::{
    check_record, report_check, write_announcement, write_record, write_text, HELP,
};
use lots::{sha256, CheckError, LotsError};
use records::{announced, digits, ANNOUNCEMENT, EXAMPLE, LIST, PLAN, SEED};
use std::io::{ErrorKind, Read, Result};
use writer::kinds::{faults, Fault};
use writer::{fails_with_its_writer, reports_without_its_writer, Writer};

/// The lines that say that a record agrees, without an announcement and with one.
const AGREES: &str = "the record agrees with the list; no announcement was compared\n";
const NAMES: &str = "the record agrees with the list, and names the announcement\n";

/// A reader that returns one byte at each read. The read with this number fails.
struct Failing<'a>(&'a [u8], usize, Fault);

impl Read for Failing<'_> {
    fn read(&mut self, bytes: &mut [u8]) -> Result<usize> {
        let Failing(left, until, fault) = self;
        if *until == 0 {
            *until = usize::MAX;
            return Err(fault.error());
        }
        *until -= 1;
        left.read(&mut bytes[..1])
    }
}

const REQUEST: Request<'_> = Request {
    seed: SEED,
    count: Count::Of(3),
};

fn record(input: &mut impl Read, out: &mut Writer) -> std::result::Result<(), CheckError> {
    write_record(&REQUEST, None, input, out)
}

fn announce(input: &mut impl Read, out: &mut Writer) -> std::result::Result<(), LotsError> {
    write_announcement(&PLAN, input, out)
}

fn check(input: &mut impl Read, out: &mut Writer) -> std::result::Result<(), CheckError> {
    check_record(EXAMPLE.as_bytes(), None, input, out)
}

/// Each text is written at once and then flushed.
#[test]
fn what_is_written() {
    let list = LIST.as_bytes();
    let mut out = Writer::willing();
    assert_eq!(record(&mut &*list, &mut out), Ok(()));
    assert_eq!(out.taken, EXAMPLE.as_bytes());
    assert_eq!(out.calls, [Some(EXAMPLE.len()), None]);
    let mut out = Writer::willing();
    assert_eq!(check(&mut &*list, &mut out), Ok(()));
    assert_eq!(out.taken, AGREES.as_bytes());
    assert_eq!(out.calls, [Some(AGREES.len()), None]);
    let mut out = Writer::willing();
    assert_eq!(announce(&mut &*list, &mut out), Ok(()));
    assert_eq!(out.taken, ANNOUNCEMENT.as_bytes());
    assert_eq!(out.calls, [Some(ANNOUNCEMENT.len()), None]);

    let (mut text, mut out) = (Writer::willing(), Writer::willing());
    let named = announced(2, 1, list).unwrap();
    let announcement = Some(named.as_bytes());
    let written = write_record(&REQUEST, announcement, &mut &*list, &mut text);
    assert_eq!(written, Ok(()));
    let sum = digits("", &sha256::digest(named.as_bytes()));
    let wanted = EXAMPLE.replace("256: none", &format!("256: {sum}"));
    assert_eq!(text.taken, wanted.as_bytes());
    let checked = check_record(&text.taken, announcement, &mut &*list, &mut out);
    assert_eq!((checked, out.taken.as_slice()), (Ok(()), NAMES.as_bytes()));
}

/// If the record does not agree, or the announcement is not that of the draw, nothing is written.
#[test]
fn what_does_not_agree() {
    let list = LIST.as_bytes();
    let announcement = Some(ANNOUNCEMENT.as_bytes());
    let mut out = Writer::willing();
    let written = write_record(&REQUEST, announcement, &mut &*list, &mut out);
    let failed = Err(CheckError::NotAnnounced);
    assert_eq!((written, out.calls), (failed, vec![]));
    let sum = digits("", &sha256::digest(ANNOUNCEMENT.as_bytes()));
    let named = EXAMPLE.replace("256: none", &format!("256: {sum}"));
    let mut out = Writer::willing();
    let checked = check_record(named.as_bytes(), announcement, &mut &*list, &mut out);
    assert_eq!((checked, out.calls), (failed, vec![]));
    for (text, announcement, error) in [
        ("", None, CheckError::Unreadable),
        (EXAMPLE, announcement, CheckError::OtherAnnouncement),
        (&EXAMPLE[..EXAMPLE.len() - 1], None, CheckError::Differs),
    ] {
        let mut out = Writer::willing();
        let checked = check_record(text.as_bytes(), announcement, &mut &*list, &mut out);
        assert_eq!((checked, out.calls), (Err(error), vec![]));
    }
    for (list, error) in [
        (&b"a\n\n"[..], LotsError::EmptyLine(2)),
        (
            b"a\n",
            LotsError::TooFew {
                entrants: 1,
                count: 3,
            },
        ),
    ] {
        let mut out = Writer::willing();
        assert_eq!(record(&mut &*list, &mut out), Err(CheckError::Draw(error)));
        let too_few = matches!(error, LotsError::TooFew { .. });
        let checked = if too_few {
            CheckError::OtherList
        } else {
            CheckError::Draw(error)
        };
        assert_eq!(check(&mut &*list, &mut out), Err(checked));
        let (entrants, count) = (1, 4);
        let wanted = if too_few {
            LotsError::TooFew { entrants, count }
        } else {
            error
        };
        assert_eq!(announce(&mut &*list, &mut out), Err(wanted));
        assert!(out.calls.is_empty());
    }
}

#[test]
fn a_read_that_fails_by_any_kind_of_error() {
    for fault in faults() {
        let error = match fault.kind() {
            ErrorKind::Interrupted => None,
            ErrorKind::OutOfMemory => Some(LotsError::Memory),
            _ => Some(LotsError::Read),
        };
        for read in [0, 1, 4, LIST.len() - 1, LIST.len()] {
            let (mut text, mut line) = (Writer::willing(), Writer::willing());
            let input = || Failing(LIST.as_bytes(), read, fault);
            let recorded = record(&mut input(), &mut text);
            let checked = check(&mut input(), &mut line);
            let wanted = error.map(CheckError::Draw);
            assert_eq!(recorded.err(), wanted, "{fault:?} at {read}");
            assert_eq!(checked.err(), wanted);
            let mut out = Writer::willing();
            assert_eq!(announce(&mut input(), &mut out).err(), error);
            assert_eq!(out.calls.is_empty(), error.is_some());
            assert_eq!(text.calls.is_empty(), error.is_some());
            assert_eq!(line.calls.is_empty(), error.is_some());
        }
    }
}

#[test]
fn a_write_or_flush_that_fails() {
    let list = LIST.as_bytes();
    for fault in [ErrorKind::BrokenPipe, ErrorKind::OutOfMemory].map(Fault::from) {
        for call in 0..=EXAMPLE.len() {
            let mut out = Writer::failing(call, fault);
            let failed = Err(CheckError::Draw(LotsError::Write));
            assert_eq!(record(&mut &*list, &mut out), failed);
            assert_eq!(out.taken, EXAMPLE.as_bytes()[..call]);
        }
        for call in 0..=ANNOUNCEMENT.len() {
            let mut out = Writer::failing(call, fault);
            assert_eq!(announce(&mut &*list, &mut out), Err(LotsError::Write));
            assert_eq!(out.taken, ANNOUNCEMENT.as_bytes()[..call]);
        }
        for call in 0..=AGREES.len() {
            let mut out = Writer::failing(call, fault);
            let failed = Err(CheckError::Draw(LotsError::Write));
            assert_eq!(check(&mut &*list, &mut out), failed);
            assert_eq!(out.taken, AGREES.as_bytes()[..call]);
        }
    }
}

#[test]
fn a_text_or_report_that_fails_by_any_kind_of_error() {
    let text = &HELP.as_bytes()[..50];
    fails_with_its_writer(text, LotsError::Write, |out| write_text(text, out));
    let line = b"lots: the record names another announcement, or none\n";
    let error = Err(CheckError::OtherAnnouncement);
    reports_without_its_writer(line, 10, |err| report_check(error, err));
}

#[test]
fn reports() {
    for (error, line, status) in [
        (CheckError::Unreadable, "this is no record of format 2", 9),
        (
            CheckError::OtherAnnouncement,
            "the record names another announcement, or none",
            10,
        ),
        (
            CheckError::OtherList,
            "the record is that of a draw from another list",
            11,
        ),
        (
            CheckError::Differs,
            "the record is not that of a draw from this list",
            11,
        ),
        (
            CheckError::NotAnnounced,
            "the announcement does not fit this list and the number of entrants drawn",
            12,
        ),
        (CheckError::Draw(LotsError::Read), "read failed", 6),
    ] {
        let mut err = Writer::willing();
        assert_eq!(report_check(Err(error), &mut err), status);
        assert_eq!(err.taken, format!("lots: {line}\n").as_bytes());
    }
    let mut err = Writer::willing();
    assert_eq!(report_check(Ok(()), &mut err), 0);
    assert!(err.calls.is_empty());
}
