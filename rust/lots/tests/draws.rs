//! The draw without the program: places and entrants, the lines of a list, and errors.

#[path = "common/formats.rs"]
mod formats;

use formats::is_displayed;
use lots::{count_entrants, draw, draw_places, LotsError};

/// The places that the seed "a seed" draws from ten, by the Python code in the repository's
/// `docs/LOTS.md`.
const DRAWN: [usize; 10] = [7, 0, 4, 9, 1, 5, 3, 8, 2, 6];

const LETTERS: [&str; 10] = ["a", "b", "c", "d", "e", "f", "g", "h", "i", "j"];

#[test]
fn a_draw_of_some_is_the_beginning_of_a_draw_of_all() {
    for count in 0..=10 {
        let mut places = [usize::MAX; 10];
        assert_eq!(draw_places("a seed", &mut places, count), Ok(()));
        assert_eq!(places[..count], DRAWN[..count]);
        places.sort_unstable();
        assert!(places.into_iter().eq(0..10), "{count}");
    }
}

#[test]
fn entrants_of_any_type_are_those_at_the_places() {
    let mut letters = LETTERS;
    assert_eq!(draw("a seed", &mut letters, 10), Ok(()));
    assert_eq!(letters, DRAWN.map(|place| LETTERS[place]));
    let mut units = [(); 10];
    assert_eq!(draw("a seed", &mut units, 3), Ok(()));
}

#[test]
fn seeds_are_told_apart() {
    let mut orders = Vec::new();
    for seed in [
        "", "a seed", "A seed", "a seed ", "a seed\n", "a\0seed", "\u{e9}", "e\u{301}",
    ] {
        let mut places = [0; 10];
        assert_eq!(draw_places(seed, &mut places, 10), Ok(()));
        assert!(!orders.contains(&places), "{seed:?}");
        orders.push(places);
    }
}

#[test]
fn too_few_entrants_stay_where_they_are() {
    for (entrants, count) in [(0, 1), (1, 2), (9, 10), (10, usize::MAX)] {
        let refused = Err(LotsError::TooFew { entrants, count });
        let mut letters = LETTERS;
        assert_eq!(draw("a seed", &mut letters[..entrants], count), refused);
        assert_eq!(letters, LETTERS);
        let mut places = [7; 10];
        assert_eq!(
            draw_places("a seed", &mut places[..entrants], count),
            refused
        );
        assert!(places[..entrants].iter().copied().eq(0..entrants));
    }
}

/// The lines of a list, or the number of its first empty line.
type Lines = Result<&'static [&'static [u8]], usize>;

const LISTS: [(&[u8], Lines); 12] = [
    (b"", Ok(&[])),
    (b"a", Ok(&[b"a"])),
    (b"a\n", Ok(&[b"a"])),
    (b"a\nb", Ok(&[b"a", b"b"])),
    (b"ab\r\nc\n", Ok(&[b"ab\r", b"c"])),
    (b" \n\0\n\xff\xfe", Ok(&[b" ", b"\0", b"\xff\xfe"])),
    (b"a\na\na\n", Ok(&[b"a", b"a", b"a"])),
    (b"\n", Err(1)),
    (b"\na", Err(1)),
    (b"a\n\n", Err(2)),
    (b"a\n\nb\n\n", Err(2)),
    (b"a\nb\n\nc", Err(3)),
];

#[test]
fn entrants_are_counted() {
    for (list, lines) in LISTS {
        let wanted = lines.map(<[_]>::len).map_err(LotsError::EmptyLine);
        assert_eq!(count_entrants(list), wanted, "{list:?}");
    }
}

#[test]
#[cfg(feature = "std")]
fn entrants_are_lines() {
    for (list, lines) in LISTS {
        let wanted = lines.map(<[_]>::to_vec).map_err(LotsError::EmptyLine);
        assert_eq!(lots::entrants_of(list), wanted, "{list:?}");
    }
}

/// Each error with its status and its text.
const ERRORS: [(LotsError, u8, &str); 7] = [
    (LotsError::Usage, 2, "usage: lots SEED COUNT|all < entrants"),
    (
        LotsError::TooFew {
            entrants: 3,
            count: 4,
        },
        3,
        "3 entrants, 4 asked for",
    ),
    (LotsError::EmptyLine(5), 4, "line 5 is empty"),
    (LotsError::Memory, 5, "no memory"),
    (LotsError::Read, 6, "read failed"),
    (LotsError::Write, 7, "write failed"),
    (LotsError::Exhausted, 8, "128 words were rejected"),
];

#[test]
fn errors_have_a_status_and_a_text() {
    for (error, status, text) in ERRORS {
        assert_eq!(error.status(), status);
        for width in 0..=60 {
            is_displayed(&error, text, [width, 60 - width]);
        }
    }
}

#[test]
#[cfg(feature = "std")]
fn errors_are_reported_in_one_line() {
    let mut line = Vec::new();
    assert_eq!(lots::run::report(Ok(()), &mut line), 0);
    assert!(line.is_empty());
    for (error, status, text) in ERRORS {
        line.clear();
        assert_eq!(lots::run::report(Err(error), &mut line), status);
        assert_eq!(line, format!("lots: {text}\n").as_bytes());
        // The status is the same if the line cannot be written.
        assert_eq!(
            lots::run::report(Err(error), &mut [].as_mut_slice()),
            status
        );
        let boxed: Box<dyn std::error::Error> = error.into();
        assert_eq!(boxed.to_string(), text);
        assert!(boxed.source().is_none());
    }
}
