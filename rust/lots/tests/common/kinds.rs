//! Errors of every kind that a system call may return.
#![allow(dead_code)] // each test file uses a part

use std::io::{Error, ErrorKind};

/// The kinds that the oldest supported compiler knows, and those that this compiler assigns to the
/// system's error numbers.
pub fn kinds() -> Vec<ErrorKind> {
    let mut kinds = vec![
        ErrorKind::NotFound,
        ErrorKind::PermissionDenied,
        ErrorKind::ConnectionRefused,
        ErrorKind::ConnectionReset,
        ErrorKind::ConnectionAborted,
        ErrorKind::NotConnected,
        ErrorKind::AddrInUse,
        ErrorKind::AddrNotAvailable,
        ErrorKind::BrokenPipe,
        ErrorKind::AlreadyExists,
        ErrorKind::WouldBlock,
        ErrorKind::InvalidInput,
        ErrorKind::InvalidData,
        ErrorKind::TimedOut,
        ErrorKind::WriteZero,
        ErrorKind::Interrupted,
        ErrorKind::Unsupported,
        ErrorKind::UnexpectedEof,
        ErrorKind::OutOfMemory,
        ErrorKind::Other,
    ];
    kinds.extend((1..200).map(|number| Error::from_raw_os_error(number).kind()));
    kinds.sort_unstable();
    kinds.dedup();
    kinds
}

/// An error with only a kind, one with a text, or one with an error number of the system.
#[derive(Clone, Copy, Debug)]
pub enum Fault {
    Alone(ErrorKind),
    Told(ErrorKind),
    Numbered(i32),
}

impl Fault {
    pub fn error(self) -> Error {
        match self {
            Fault::Alone(kind) => kind.into(),
            Fault::Told(kind) => Error::new(kind, "a fault"),
            Fault::Numbered(number) => Error::from_raw_os_error(number),
        }
    }

    pub fn kind(self) -> ErrorKind {
        self.error().kind()
    }
}

impl From<ErrorKind> for Fault {
    fn from(kind: ErrorKind) -> Fault {
        Fault::Alone(kind)
    }
}

/// Errors of every kind, in each form.
pub fn faults() -> Vec<Fault> {
    let forms = |kind| [Fault::Alone(kind), Fault::Told(kind)];
    let numbered = (1..200).map(Fault::Numbered);
    kinds()
        .into_iter()
        .flat_map(forms)
        .chain(numbered)
        .collect()
}
