//! What the command line asks the program `lots` to do.

use crate::announcement::Plan;
use crate::arguments::{count_of, read, Count, Request};

/// A command of the program.
#[derive(Clone, Debug, PartialEq, Eq)]
pub enum Command<'a> {
    /// Draw, as `run::run` does with the arguments.
    Draw,
    /// Write an announcement.
    Announce {
        /// What it says, besides the list.
        plan: Plan<'a>,
    },
    /// Draw, and write the record.
    Record {
        /// The seed and the count.
        request: Request<'a>,
        /// The path of the announcement, if there is one.
        announcement: Option<&'a str>,
    },
    /// Check a record.
    Check {
        /// The path of the record.
        record: &'a str,
        /// The path of the announcement, if there is one.
        announcement: Option<&'a str>,
    },
    /// Write the version of the program.
    Version,
    /// Write how the program is called.
    Help,
}

/// Returns the command of the arguments. A seed and a count are a draw, whatever the seed is.
/// `Draw` is also returned for arguments that are no command: `run::run` then returns `Usage`.
#[must_use]
pub fn read_command(arguments: &[String]) -> Command<'_> {
    if read(arguments).is_some() {
        return Command::Draw;
    }
    let (name, values) = if let Some((name, values)) = arguments.split_first() {
        (name, values)
    } else {
        return Command::Draw;
    };
    match name.as_str() {
        "--announce" => announce_command(values),
        "--record" => record_command(values),
        "--check" => check_command(values),
        "--version" if values.is_empty() => Command::Version,
        "--help" if values.is_empty() => Command::Help,
        _ => Command::Draw,
    }
}

/// Returns the command of the values after `--record`: SEED COUNT [ANNOUNCEMENT].
fn record_command(values: &[String]) -> Command<'_> {
    let (asked, announcement) = match values {
        [_, _, announcement] => (&values[..2], Some(announcement.as_str())),
        _ => (values, None),
    };
    match read(asked) {
        Some(request) => Command::Record {
            request,
            announcement,
        },
        None => Command::Draw,
    }
}

/// Returns the command of the values after `--check`: RECORD [ANNOUNCEMENT].
fn check_command(values: &[String]) -> Command<'_> {
    match values {
        [record] => Command::Check {
            record: record.as_str(),
            announcement: None,
        },
        [record, announcement] => Command::Check {
            record: record.as_str(),
            announcement: Some(announcement.as_str()),
        },
        _ => Command::Draw,
    }
}

/// Returns the command of the values after `--announce`: OCCASION WINNERS RESERVES SOURCE FORM
/// EXAMPLE TIME. If a text is empty or there is no winner, this is not a command, and `Draw` is
/// returned.
fn announce_command(values: &[String]) -> Command<'_> {
    let (occasion, winners, reserves, source, form, example, time) =
        if let [occasion, winners, reserves, source, form, example, time] = values {
            (occasion, winners, reserves, source, form, example, time)
        } else {
            return Command::Draw;
        };
    let (winners, reserves) = if let (Some(Count::Of(winners)), Some(Count::Of(reserves))) =
        (count_of(winners.as_str()), count_of(reserves.as_str()))
    {
        (winners, reserves)
    } else {
        return Command::Draw;
    };
    if winners == 0
        || occasion.is_empty()
        || source.is_empty()
        || form.is_empty()
        || example.is_empty()
        || time.is_empty()
    {
        return Command::Draw;
    }
    Command::Announce {
        plan: Plan {
            occasion: occasion.as_str(),
            winners,
            reserves,
            source: source.as_str(),
            form: form.as_str(),
            example: example.as_str(),
            time: time.as_str(),
        },
    }
}
