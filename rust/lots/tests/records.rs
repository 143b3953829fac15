//! The text of a record.

#[path = "common/records.rs"]
mod records;

use lots::arguments::Count;
use lots::record::{record, Source};
use lots::{draw_places, sha256, LotsError};
use records::{digits, recorded, source, EXAMPLE, LIST, SEED};
use std::fmt::Write;

#[test]
fn the_example() {
    let text = recorded(SEED, Count::Of(3), LIST.as_bytes());
    assert_eq!(text.as_deref(), Ok(EXAMPLE));
}

/// The lines of the announcement and of the module stand where the format has them.
#[test]
fn announcements_and_modules() {
    let sums = [sha256::digest(b"announcement"), sha256::digest(b"module")];
    let line = "announcement SHA-256: none\n";
    for announcement in [None, Some(sums[0])] {
        for program in [None, Some(sums[1])] {
            let (seed, count) = (SEED, Count::Of(3));
            let made = Source {
                seed,
                count,
                announcement,
                program,
            };
            let mut wanted = EXAMPLE.to_string();
            if let Some(sum) = announcement {
                wanted = wanted.replace(
                    line,
                    &format!("announcement SHA-256: {}\n", digits("", &sum)),
                );
            }
            if let Some(sum) = program {
                let module = format!("drawn: 3\nmodule SHA-256: {}\n", digits("", &sum));
                wanted = wanted.replace("drawn: 3\n", &module);
            }
            assert_eq!(record(&made, LIST.as_bytes()), Ok(wanted));
        }
    }
}

/// Each number as a line.
fn lines(numbers: impl Iterator<Item = usize>) -> String {
    let lines = numbers.map(|number| format!("{number}\n"));
    lines.collect::<Vec<_>>().concat()
}

/// The numbers 1, 2, .. as a list, and the record of a draw of some of them by the seed `seed`.
fn record_of_numbers(entrants: usize, count: usize) -> String {
    let list = lines(1..=entrants);
    let mut places = vec![0; entrants];
    assert_eq!(draw_places("seed", &mut places, count), Ok(()));
    let drawn: Vec<usize> = places[..count].iter().map(|place| place + 1).collect();
    let result = lines(drawn.iter().copied());
    let mut wanted = format!(
        "nanorand public draw 2\nannouncement SHA-256: none\nseed: \"seed\"\n\
         list SHA-256: {}\nentrants: {entrants}\ndrawn: {count}\nresult SHA-256: {}\n",
        digits("", &sha256::digest(list.as_bytes())),
        digits("", &sha256::digest(result.as_bytes())),
    );
    for (index, number) in drawn.iter().take(1000).enumerate() {
        writeln!(wanted, "{}: \"{number}\"", index + 1).unwrap();
    }
    if count > 1000 {
        writeln!(wanted, "and {} more", count - 1000).unwrap();
    }
    wanted += "end of the record\n";
    let text = recorded("seed", Count::Of(count), list.as_bytes());
    assert!(text.as_ref() == Ok(&wanted), "{count} of {entrants}");
    if count == entrants {
        assert!(recorded("seed", Count::All, list.as_bytes()) == text);
    }
    wanted
}

#[test]
fn numbers_of_entrants() {
    for entrants in [
        0, 1, 2, 9, 10, 11, 999, 1000, 1001, 1002, 2000, 2001, 12_000,
    ] {
        for count in [
            0, 1, 2, 9, 10, 11, 999, 1000, 1001, 1002, 1999, 2000, entrants,
        ] {
            if count <= entrants {
                record_of_numbers(entrants, count);
            }
        }
    }
    assert!(!record_of_numbers(1000, 1000).contains("more"));
    assert!(record_of_numbers(1001, 1001).ends_with("\nand 1 more\nend of the record\n"));
    assert!(record_of_numbers(0, 0).ends_with("b855\nend of the record\n"));
}

#[test]
fn draws_that_fail() {
    let (entrants, count) = (12, 13);
    let text = recorded(SEED, Count::Of(13), LIST.as_bytes());
    assert_eq!(text, Err(LotsError::TooFew { entrants, count }));
    let text = recorded(SEED, Count::All, b"a\n\nb\n");
    assert_eq!(text, Err(LotsError::EmptyLine(2)));
    let made = source(SEED, Count::Of(usize::MAX));
    assert!(matches!(record(&made, b""), Err(LotsError::TooFew { .. })));
}
