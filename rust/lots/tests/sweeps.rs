//! Lists and arguments of every size: no run fails without a cause. No clause of the proved source
//! states this.

#[path = "common/sizes.rs"]
mod sizes;
#[path = "common/writer.rs"]
mod writer;

use lots::run::{report, run};
use lots::{draw_places, LotsError};
use nanorand_proved::{Rng, WyRand};
use sizes::sizes;
use std::io::ErrorKind;
use writer::{Does, Writer};

/// The list with a line for each entrant.
fn lines_of(entrants: &[String]) -> String {
    let mut lines = entrants.join("\n");
    if !entrants.is_empty() {
        lines.push('\n');
    }
    lines
}

/// The text of the first `count` entrants drawn, at the places that the library draws.
fn text_drawn(entrants: &[String], count: usize) -> String {
    let mut places = vec![0; entrants.len()];
    assert_eq!(draw_places("seed", &mut places, count), Ok(()));
    let drawn = places.iter().take(count);
    lines_of(
        &drawn
            .map(|place| entrants[*place].clone())
            .collect::<Vec<_>>(),
    )
}

/// Asserts that a run draws this text, writes it in one call and then flushes, and that a failed
/// flush is an error.
fn draws(seed: &str, count: &str, list: &str, text: &str) {
    let arguments = [seed, count].map(String::from);
    let fails = Does::Fails(ErrorKind::BrokenPipe.into());
    for (flush, outcome) in [(Does::Takes(0), Ok(())), (fails, Err(LotsError::Write))] {
        let mut out = Writer::new(Does::Takes(usize::MAX), flush);
        let ended = run(&arguments, &mut list.as_bytes(), &mut out);
        assert_eq!(ended, outcome, "{count}");
        assert!(out.taken == text.as_bytes(), "{count}");
        let calls = [Some(text.len()), None];
        assert_eq!(out.calls, calls[usize::from(text.is_empty())..]);
    }
}

/// Asserts that a run returns this error and writes nothing.
fn is_refused(count: &str, list: &str, error: LotsError) {
    let arguments = ["seed", count].map(String::from);
    let mut out = Writer::willing();
    let ended = run(&arguments, &mut list.as_bytes(), &mut out);
    assert_eq!((ended, out.calls), (Err(error), vec![]));
}

/// Lists with every number of entrants, each of one to twenty digits. All entrants are drawn, by
/// `all` and by their number; from long lists, the first ones. To draw one more than there are is
/// an error, and so is an empty line, with its number.
#[test]
fn all_numbers_of_entrants() {
    let mut rng = WyRand::new_seed(1);
    for size in sizes(65_537) {
        let number = |_| (rng.next_u64() >> rng.range(0..64_u32)).to_string();
        let mut entrants: Vec<String> = (0..size).map(number).collect();
        let list = lines_of(&entrants);
        let count = size.min(1025);
        let text = text_drawn(&entrants, count);
        draws("seed", &count.to_string(), &list, &text);
        if count == size {
            draws("seed", "all", &list, &text);
        }
        let too_few = LotsError::TooFew {
            entrants: size,
            count: size + 1,
        };
        is_refused(&(size + 1).to_string(), &list, too_few);
        for empty in [rng.range(0..=size), size] {
            entrants.insert(empty, String::new());
            is_refused("all", &lines_of(&entrants), LotsError::EmptyLine(empty + 1));
            entrants.remove(empty);
        }
    }
}

/// An empty line at each place of a list.
#[test]
fn all_places_of_an_empty_line() {
    for place in 0..=1025 {
        let list = format!(
            "{}\n{}",
            "Ada\n".repeat(place),
            "Zo\u{eb}\n".repeat(1025 - place)
        );
        is_refused("all", &list, LotsError::EmptyLine(place + 1));
    }
}

/// Linux passes at most about this many bytes in one argument.
const LONGEST_ARGUMENT: usize = 131_070;

/// A seed, a count and an entrant of every length.
#[test]
fn all_lengths() {
    for length in sizes(65_537).into_iter().chain([LONGEST_ARGUMENT]) {
        let one = format!("{}1", "0".repeat(length));
        let line = format!("{one}\n");
        draws(&one, &one, &one, &line);
        draws(&one, &one, &line, &line);
    }
}

/// Asserts the line that is written for an error, and the status. Nothing is flushed.
fn reports(error: LotsError, status: u8, text: &str) {
    let mut line = Writer::willing();
    assert_eq!(report(Err(error), &mut line), status);
    assert_eq!(line.taken, text.as_bytes());
    assert!(!line.calls.contains(&None));
}

/// Errors are reported for every line number, number of entrants and count.
#[test]
fn all_numbers_are_reported() {
    for count in sizes(usize::MAX) {
        let text = format!("lots: line {count} is empty\n");
        reports(LotsError::EmptyLine(count), 4, &text);
        let entrants = count / 2;
        let text = format!("lots: {entrants} entrants, {count} asked for\n");
        reports(LotsError::TooFew { entrants, count }, 3, &text);
        if count > 1 {
            let error = LotsError::TooFew { entrants: 1, count };
            is_refused(&count.to_string(), "Ada", error);
        }
    }
}
