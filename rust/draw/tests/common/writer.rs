//! A writer that records its calls, and fails when it is told to.
#![allow(dead_code)] // each test file uses a part

#[path = "kinds.rs"]
pub mod kinds;

use kinds::{faults, Fault};
use std::fmt::Debug;
use std::io::{ErrorKind, Result, Write};

/// What a call of the writer does.
#[derive(Clone, Copy)]
pub enum Does {
    /// Takes at most this many bytes.
    Takes(usize),
    /// Fails.
    Fails(Fault),
}

/// `calls` has the size of each write, and `None` for each flush.
pub struct Writer {
    pub write: Does,
    pub flush: Does,
    /// The call with this number, from 0, fails in any case.
    pub fault: Option<(usize, Fault)>,
    pub taken: Vec<u8>,
    pub calls: Vec<Option<usize>>,
}

impl Writer {
    pub fn new(write: Does, flush: Does) -> Writer {
        Writer {
            write,
            flush,
            fault: None,
            taken: Vec::new(),
            calls: Vec::new(),
        }
    }

    /// A writer that takes everything.
    pub fn willing() -> Writer {
        Writer::new(Does::Takes(usize::MAX), Does::Takes(0))
    }

    /// A writer that takes one byte at each call, and whose call with this number fails.
    pub fn failing(call: usize, fault: Fault) -> Writer {
        Writer {
            fault: Some((call, fault)),
            ..Writer::new(Does::Takes(1), Does::Takes(0))
        }
    }

    /// Records a call, and returns what it does.
    fn does(&mut self, call: Option<usize>, usually: Does) -> Does {
        let number = self.calls.len();
        self.calls.push(call);
        match self.fault {
            Some((call, fault)) if call == number => Does::Fails(fault),
            _ => usually,
        }
    }
}

impl Write for Writer {
    fn write(&mut self, bytes: &[u8]) -> Result<usize> {
        match self.does(Some(bytes.len()), self.write) {
            Does::Takes(most) => {
                let size = most.min(bytes.len());
                self.taken.extend_from_slice(&bytes[..size]);
                Ok(size)
            }
            Does::Fails(fault) => Err(fault.error()),
        }
    }

    fn flush(&mut self) -> Result<()> {
        match self.does(None, self.flush) {
            Does::Takes(_) => Ok(()),
            Does::Fails(fault) => Err(fault.error()),
        }
    }
}

/// Asserts that a run returns `failed` if any call of its writer fails with an error of any kind: a
/// write of one byte of `text`, or the flush after them. Only an interrupted write is repeated.
pub fn fails_with_its_writer<E: Copy + Debug + PartialEq>(
    text: &[u8],
    failed: E,
    run: impl Fn(&mut Writer) -> std::result::Result<(), E>,
) {
    for fault in faults() {
        for call in 0..=text.len() {
            let mut out = Writer::failing(call, fault);
            let ended = (run(&mut out), out.calls.len());
            let is_retried = fault.kind() == ErrorKind::Interrupted && call < text.len();
            let (expected, taken) = if is_retried {
                ((Ok(()), text.len() + 2), text.len())
            } else {
                ((Err(failed), call + 1), call)
            };
            assert_eq!(ended, expected, "{fault:?} at {call}");
            assert_eq!(out.taken, text[..taken], "{fault:?} at {call}");
        }
    }
}

/// Asserts that a report returns `status` even if its line cannot be written, whatever the error.
pub fn reports_without_its_writer(line: &[u8], status: u8, report: impl Fn(&mut Writer) -> u8) {
    for fault in faults() {
        for call in 0..line.len() {
            let mut err = Writer::failing(call, fault);
            assert_eq!(report(&mut err), status, "{fault:?} at {call}");
            let is_retried = fault.kind() == ErrorKind::Interrupted;
            let taken = if is_retried { line.len() } else { call };
            assert_eq!(err.taken, line[..taken], "{fault:?} at {call}");
        }
    }
}
