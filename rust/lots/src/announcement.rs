//! The text of an announcement, and whether a text is the announcement of a draw from a list.

use crate::check_error::CheckError;
use crate::claims::{number_of, unquoted, value_after};
use crate::quoted::push_quoted;
use crate::record::push_sum;
use crate::sha256;
use crate::{count_entrants, LotsError};

/// What an announcement says, besides the list.
#[derive(Clone, Debug, PartialEq, Eq)]
pub struct Plan<'a> {
    /// What is drawn for.
    pub occasion: &'a str,
    /// How many are drawn first: the winners.
    pub winners: usize,
    /// How many are drawn after them: if a winner declines, the first reserve takes the place.
    pub reserves: usize,
    /// Where the seed will come from.
    pub source: &'a str,
    /// How the seed will be written.
    pub form: &'a str,
    /// A seed of this form.
    pub example: &'a str,
    /// When and where the seed will be fixed.
    pub time: &'a str,
}

/// Appends a line with a quoted text.
fn push_text(
    text: &mut String,
    name: &str,
    value: &str,
) -> Result<(), std::collections::TryReserveError> {
    text.try_reserve(name.len())?;
    text.push_str(name);
    push_quoted(text, value.as_bytes())?;
    text.try_reserve(1)?;
    text.push('\n');
    Ok(())
}

/// Appends a line with a number.
fn push_number(
    text: &mut String,
    name: &str,
    number: usize,
) -> Result<(), std::collections::TryReserveError> {
    writeln!(crate::growing::Growing(text), "{name}{number}")
}

/// Appends the lines of the list: its SHA-256, and how many entrants it has.
fn push_list(
    text: &mut String,
    list: &[u8],
    entrants: usize,
) -> Result<(), std::collections::TryReserveError> {
    push_sum(text, "list SHA-256: ", &sha256::digest(list))?;
    push_number(text, "entrants: ", entrants)
}

/// Appends the lines that say where the seed comes from, and when.
fn push_seed_lines(
    text: &mut String,
    plan: &Plan<'_>,
) -> Result<(), std::collections::TryReserveError> {
    push_text(text, "seed source: ", plan.source)?;
    push_text(text, "seed form: ", plan.form)?;
    push_text(text, "seed example: ", plan.example)?;
    push_text(text, "time: ", plan.time)
}

/// Returns the text of the announcement of a draw from a list of `entrants` entrants.
fn text_for(
    plan: &Plan<'_>,
    list: &[u8],
    entrants: usize,
) -> Result<String, std::collections::TryReserveError> {
    let mut text = String::new();
    text.try_reserve("nanorand announcement 1\n".len())?;
    text.push_str("nanorand announcement 1\n");
    push_text(&mut text, "occasion: ", plan.occasion)?;
    push_list(&mut text, list, entrants)?;
    push_number(&mut text, "winners: ", plan.winners)?;
    push_number(&mut text, "reserves: ", plan.reserves)?;
    push_seed_lines(&mut text, plan)?;
    text.try_reserve("end of the announcement\n".len())?;
    text.push_str("end of the announcement\n");
    Ok(text)
}

/// Returns the announcement of a draw from a list.
///
/// # Errors
///
/// Returns `EmptyLine` as `count_entrants` does, `TooFew` if and only if the list has fewer
/// entrants than there are winners and reserves, or `Memory`.
///
/// # Examples
///
/// ```
/// use lots::announcement::{announcement, is_announcement, Plan};
///
/// let plan = Plan {
///     occasion: "Summer raffle of the school",
///     winners: 2,
///     reserves: 1,
///     source: "20 throws of a die, in the hall",
///     form: "the numbers thrown, in order, with one space between them",
///     example: "4 1 6 3 3 2 5 6 1 4 2 6 5 3 1 1 6 2 4 5",
///     time: "Friday 4 December 2026, 12:00, Madrid",
/// };
/// let list = b"Ann\nBen\nCid\nDot\nEve\n";
/// let text = announcement(&plan, list)?;
/// assert!(text.contains("entrants: 5\nwinners: 2\nreserves: 1\n"));
/// assert_eq!(is_announcement(text.as_bytes(), list, 5, 3), Ok(true));
/// # Ok::<(), lots::LotsError>(())
/// ```
pub fn announcement(plan: &Plan<'_>, list: &[u8]) -> Result<String, LotsError> {
    let entrants = count_entrants(list)?;
    if entrants < plan.winners || entrants - plan.winners < plan.reserves {
        let count = plan.winners.saturating_add(plan.reserves);
        return Err(LotsError::TooFew { entrants, count });
    }
    Ok(text_for(plan, list, entrants)?)
}

/// The values of the lines of an announcement. A value is empty if its line is missing.
#[doc(hidden)]
#[derive(Debug)]
pub struct Lines<'a> {
    pub format: &'a [u8],
    pub occasion: &'a [u8],
    pub winners: &'a [u8],
    pub reserves: &'a [u8],
    pub source: &'a [u8],
    pub form: &'a [u8],
    pub example: &'a [u8],
    pub time: &'a [u8],
}

/// Returns the values of the lines of an announcement.
fn lines_in(text: &[u8]) -> Lines<'_> {
    let (format, text) = value_after(text, b"nanorand announcement ");
    let (occasion, text) = value_after(text, b"occasion: ");
    let (_, text) = value_after(text, b"list SHA-256: ");
    let (_, text) = value_after(text, b"entrants: ");
    let (winners, text) = value_after(text, b"winners: ");
    let (reserves, text) = value_after(text, b"reserves: ");
    let (source, text) = value_after(text, b"seed source: ");
    let (form, text) = value_after(text, b"seed form: ");
    let (example, text) = value_after(text, b"seed example: ");
    let (time, _) = value_after(text, b"time: ");
    Lines {
        format,
        occasion,
        winners,
        reserves,
        source,
        form,
        example,
        time,
    }
}

/// Reads back a text in quotation marks. Returns `None` if it is not one, or not UTF-8.
fn read_text(text: &[u8]) -> Result<Option<String>, LotsError> {
    match unquoted(text) {
        Ok(bytes) => Ok(String::from_utf8(bytes).ok()),
        Err(CheckError::Draw(error)) => Err(error),
        Err(_) => Ok(None),
    }
}

/// The texts of an announcement.
#[doc(hidden)]
#[derive(Debug)]
pub struct Texts {
    pub occasion: String,
    pub source: String,
    pub form: String,
    pub example: String,
    pub time: String,
}

/// Reads back the texts of an announcement. Returns `None` if one of them is no text in quotation
/// marks.
fn texts_of(lines: &Lines<'_>) -> Result<Option<Texts>, LotsError> {
    let occasion = if let Some(occasion) = read_text(lines.occasion)? {
        occasion
    } else {
        return Ok(None);
    };
    let source = if let Some(source) = read_text(lines.source)? {
        source
    } else {
        return Ok(None);
    };
    let form = if let Some(form) = read_text(lines.form)? {
        form
    } else {
        return Ok(None);
    };
    let example = if let Some(example) = read_text(lines.example)? {
        example
    } else {
        return Ok(None);
    };
    let time = if let Some(time) = read_text(lines.time)? {
        time
    } else {
        return Ok(None);
    };
    Ok(Some(Texts {
        occasion,
        source,
        form,
        example,
        time,
    }))
}

/// Whether no text of the plan is empty, there is a winner, and winners and reserves are `count`
/// together.
fn announces(plan: &Plan<'_>, count: usize) -> bool {
    !plan.occasion.is_empty()
        && !plan.source.is_empty()
        && !plan.form.is_empty()
        && !plan.example.is_empty()
        && !plan.time.is_empty()
        && 1 <= plan.winners
        && plan.winners.checked_add(plan.reserves) == Some(count)
}

/// Whether the text is, byte for byte, the announcement of a draw of `count` entrants from the
/// list. The function reads the values from the text, writes the announcement again from these, and
/// compares the two.
///
/// The list has to have `entrants` entrants, as `count_entrants` counts them.
///
/// # Errors
///
/// Returns `Memory`, the only error, if an allocation fails.
pub fn is_announcement(
    text: &[u8],
    list: &[u8],
    entrants: usize,
    count: usize,
) -> Result<bool, LotsError> {
    let lines = lines_in(text);
    let winners = if let Some(winners) = number_of(lines.winners) {
        winners
    } else {
        return Ok(false);
    };
    let reserves = if let Some(reserves) = number_of(lines.reserves) {
        reserves
    } else {
        return Ok(false);
    };
    let texts = if let Some(texts) = texts_of(&lines)? {
        texts
    } else {
        return Ok(false);
    };
    let plan = Plan {
        occasion: texts.occasion.as_str(),
        winners,
        reserves,
        source: texts.source.as_str(),
        form: texts.form.as_str(),
        example: texts.example.as_str(),
        time: texts.time.as_str(),
    };
    if !announces(&plan, count) {
        return Ok(false);
    }
    Ok(text_for(&plan, list, entrants)?.as_bytes() == text)
}
