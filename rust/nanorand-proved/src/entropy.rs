//! Seeds from a source of random bytes that the caller provides.
//!
//! For a seed from the operating system, call `from_entropy` of a generator, or `system::fill` for
//! its bytes. The functions of this module have the names of those of `nanorand` 0.7.0, and are
//! kept for compatibility with it.

#[cfg(feature = "std")]
use std::io::Read;

/// The reasons why a source of entropy returned no bytes.
#[derive(Clone, Copy, Debug, PartialEq, Eq)]
pub enum EntropyError {
    /// The reader ended too early: it returned 0 bytes although the slice was not full.
    Short,
    /// The reader returned an error. An interruption (`ErrorKind::Interrupted`) counts as an error.
    Fault,
    /// There is no such source. `backup` returns this error, and an `io::Error` of kind
    /// `Unsupported` is converted to it.
    Unavailable,
}

impl core::fmt::Display for EntropyError {
    fn fmt(&self, f: &mut core::fmt::Formatter<'_>) -> core::fmt::Result {
        f.write_str(match self {
            EntropyError::Short => "the entropy reader ended early",
            EntropyError::Fault => "the entropy reader failed",
            EntropyError::Unavailable => "no entropy source is available",
        })
    }
}

#[cfg(feature = "std")]
impl std::error::Error for EntropyError {}

/// Fills the slice with the next bytes of the reader, and takes exactly that many. It does not ask
/// the operating system: [`system::fill`](crate::system::fill) does.
///
/// For readers such as a slice of bytes, it is proved that the function fills the slice with these
/// bytes, and takes no others. The reader may return the bytes in pieces of any size. For an empty
/// slice, the function returns `Ok` and reads nothing.
///
/// # Errors
///
/// Returns `Short` if the reader returned 0 bytes before the slice was full, and `Fault` if the
/// reader returned an error, including an interruption. After an error the contents of the slice
/// and the position of the reader are unspecified. For a reader such as a slice of bytes, an error
/// means that it returned fewer bytes than were asked for.
#[cfg(feature = "std")]
pub fn system<R: Read>(source: &mut R, out: &mut [u8]) -> Result<(), EntropyError> {
    let mut filled = 0;
    while filled < out.len() {
        match source.read(&mut out[filled..]) {
            Ok(0) => return Err(EntropyError::Short),
            Ok(count) => filled += count,
            Err(_) => return Err(EntropyError::Fault),
        }
    }
    Ok(())
}

/// Stands in for a random-number instruction of the processor, which this library does not use.
/// Always returns `None` and leaves the slice unchanged. It is kept for compatibility with
/// `nanorand` 0.7.0; call `from_entropy` of a generator instead.
pub fn rdseed(out: &mut [u8]) -> Option<usize> {
    let _ = out;
    None
}

/// Stands in for an entropy source of last resort. There is none. It is kept for compatibility with
/// `nanorand` 0.7.0; call `from_entropy` of a generator instead.
///
/// # Errors
///
/// Always returns `Unavailable`, even for an empty slice, and leaves the slice unchanged.
pub fn backup(out: &mut [u8]) -> Result<(), EntropyError> {
    let _ = out;
    Err(EntropyError::Unavailable)
}
