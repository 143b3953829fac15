//! The text of a record.

use crate::arguments::Count;
use crate::quoted::push_quoted;
use crate::sha256;
use crate::text::text_of;
use crate::{draw_lines, LotsError};

/// What a record is made from, besides the list.
#[derive(Clone, Debug, PartialEq, Eq)]
pub struct Source<'a> {
    /// The seed, which is not empty.
    pub seed: &'a str,
    /// How many entrants to draw.
    pub count: Count,
    /// The SHA-256 of the announcement, if there is one.
    pub announcement: Option<[u8; 32]>,
    /// The SHA-256 of the module that made the draw, if there is one.
    pub program: Option<[u8; 32]>,
}

/// Appends a line with a SHA-256 in hexadecimal digits.
#[doc(hidden)]
pub fn push_sum(
    text: &mut String,
    name: &str,
    sum: &[u8],
) -> Result<(), std::collections::TryReserveError> {
    let digits = crate::hex::encode(sum)?;
    writeln!(crate::growing::Growing(text), "{name}{digits}")
}

/// Appends a line for each entrant, with its number.
fn push_entrants(
    text: &mut String,
    entrants: &[&[u8]],
) -> Result<(), std::collections::TryReserveError> {
    let mut number: usize = 0;
    for entrant in entrants {
        number += 1;
        write!(crate::growing::Growing(text), "{number}: ")?;
        push_quoted(text, entrant)?;
        text.try_reserve(1)?;
        text.push('\n');
    }
    Ok(())
}

/// Appends a line that says how many are drawn beyond the first 1000, if there are any.
fn push_more(text: &mut String, count: usize) -> Result<(), std::collections::TryReserveError> {
    if count <= 1000 {
        return Ok(());
    }
    let left = count - 1000;
    writeln!(crate::growing::Growing(text), "and {left} more")
}

/// Appends the entrants drawn, at most the first 1000 of them, and the last line.
fn push_drawn(text: &mut String, drawn: &[&[u8]]) -> Result<(), std::collections::TryReserveError> {
    push_entrants(text, &drawn[..drawn.len().min(1000)])?;
    push_more(text, drawn.len())?;
    text.try_reserve("end of the record\n".len())?;
    text.push_str("end of the record\n");
    Ok(())
}

/// Appends the line of the announcement.
#[allow(clippy::ref_option)] // the proved parameter is so
fn push_announcement(
    text: &mut String,
    sum: &Option<[u8; 32]>,
) -> Result<(), std::collections::TryReserveError> {
    match sum {
        Some(sum) => push_sum(text, "announcement SHA-256: ", sum),
        None => writeln!(crate::growing::Growing(text), "announcement SHA-256: none"),
    }
}

/// Appends the line of the module that made the draw, if there is one.
#[allow(clippy::ref_option)] // the proved parameter is so
fn push_program(
    text: &mut String,
    sum: &Option<[u8; 32]>,
) -> Result<(), std::collections::TryReserveError> {
    match sum {
        Some(sum) => push_sum(text, "module SHA-256: ", sum),
        None => Ok(()),
    }
}

/// Appends the line of the seed.
fn push_seed(text: &mut String, seed: &str) -> Result<(), std::collections::TryReserveError> {
    text.try_reserve("seed: ".len())?;
    text.push_str("seed: ");
    push_quoted(text, seed.as_bytes())?;
    text.try_reserve(1)?;
    text.push('\n');
    Ok(())
}

/// Appends the lines that say what was drawn from: the announcement, the seed, the list, how many
/// entrants it has and how many are drawn, and the module.
fn push_source(
    text: &mut String,
    source: &Source<'_>,
    list: &[u8],
    entrants: usize,
) -> Result<(), std::collections::TryReserveError> {
    text.try_reserve("nanorand public draw 2\n".len())?;
    text.push_str("nanorand public draw 2\n");
    push_announcement(text, &source.announcement)?;
    push_seed(text, source.seed)?;
    push_sum(text, "list SHA-256: ", &sha256::digest(list))?;
    writeln!(crate::growing::Growing(text), "entrants: {entrants}")?;
    let drawn = source.count.among(entrants);
    writeln!(crate::growing::Growing(text), "drawn: {drawn}")?;
    push_program(text, &source.program)
}

/// Appends the lines that say what is drawn.
fn push_result(
    text: &mut String,
    drawn: &[&[u8]],
) -> Result<(), std::collections::TryReserveError> {
    let written = text_of(drawn)?;
    push_sum(text, "result SHA-256: ", &sha256::digest(&written))?;
    push_drawn(text, drawn)
}

/// Returns the record of a draw from the list, or the error of the draw.
///
/// # Errors
///
/// Returns the errors of `draw_lines`, or `Memory` if an allocation fails.
///
/// # Examples
///
/// ```
/// use lots::{arguments::Count, check::check, record::record, record::Source};
///
/// let source = Source {
///     seed: "a public seed",
///     count: Count::Of(3),
///     announcement: None,
///     program: None,
/// };
/// let list = b"Ann\nBen\nCid\nDot\nEve\n";
/// let text = record(&source, list)?;
/// assert!(text.ends_with("1: \"Ben\"\n2: \"Ann\"\n3: \"Dot\"\nend of the record\n"));
/// assert_eq!(check(text.as_bytes(), None, list), Ok(()));
/// # Ok::<(), lots::LotsError>(())
/// ```
pub fn record(source: &Source<'_>, list: &[u8]) -> Result<String, LotsError> {
    let (entrants, count) = draw_lines(source.seed, source.count, list)?;
    let mut text = String::new();
    push_source(&mut text, source, list, entrants.len())?;
    push_result(&mut text, &entrants[..count])?;
    Ok(text)
}
