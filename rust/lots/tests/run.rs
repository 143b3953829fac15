//! A whole run with readers and writers whose bytes and failures are known.

#[path = "common/writer.rs"]
mod writer;

use lots::run::{report, run};
use lots::LotsError;
use std::collections::{HashSet, VecDeque};
use std::io::{ErrorKind, Read, Result};
use writer::kinds::{faults, Fault};
use writer::{fails_with_its_writer, reports_without_its_writer, Does, Writer};

/// A reader that returns these pieces and errors, one at each read, and then no byte.
struct Pieces(VecDeque<std::result::Result<Vec<u8>, Fault>>);

impl Read for Pieces {
    fn read(&mut self, bytes: &mut [u8]) -> Result<usize> {
        let Pieces(pieces) = self;
        let mut piece = match pieces.pop_front() {
            Some(piece) => piece.map_err(Fault::error)?,
            None => return Ok(0),
        };
        let rest = piece.split_off(piece.len().min(bytes.len()));
        bytes[..piece.len()].copy_from_slice(&piece);
        if !rest.is_empty() {
            pieces.push_front(Ok(rest));
        }
        Ok(piece.len())
    }
}

/// A reader that must not be read.
struct Unread;

impl Read for Unread {
    fn read(&mut self, _: &mut [u8]) -> Result<usize> {
        panic!("it was read")
    }
}

const LIST: &[u8] = b"a\nb\nc\nd\ne\nf\ng\nh\ni\nj\n";
const DRAWN: &[u8] = b"h\na\ne\nj\nb\nf\nd\ni\nc\ng\n";

fn arguments(count: &str) -> [String; 2] {
    ["a seed".into(), count.into()]
}

/// What a run that draws all of this list returns, and the writer after it.
fn run_of(
    pieces: &[std::result::Result<&[u8], Fault>],
    mut out: Writer,
) -> (std::result::Result<(), LotsError>, Writer) {
    let pieces = pieces.iter().map(|piece| piece.map(<[u8]>::to_vec));
    let outcome = run(&arguments("all"), &mut Pieces(pieces.collect()), &mut out);
    (outcome, out)
}

#[test]
fn the_text_is_written_at_once_and_then_flushed() {
    let (outcome, out) = run_of(&[Ok(LIST)], Writer::willing());
    assert_eq!((outcome, out.taken.as_slice()), (Ok(()), DRAWN));
    assert_eq!(out.calls, [Some(20), None]);
}

#[test]
fn a_reader_may_be_interrupted_and_give_any_pieces() {
    let interrupted = Err(ErrorKind::Interrupted.into());
    for cut in 1..LIST.len() {
        let (first, rest) = LIST.split_at(cut);
        let pieces = [
            interrupted,
            Ok(first),
            interrupted,
            interrupted,
            Ok(rest),
            interrupted,
        ];
        let (outcome, out) = run_of(&pieces, Writer::willing());
        assert_eq!((outcome, out.taken.as_slice()), (Ok(()), DRAWN), "{cut}");
    }
}

/// The reader is read again after any number of interruptions in a row.
#[test]
fn a_reader_may_be_interrupted_many_times() {
    let interrupted = vec![Err(ErrorKind::Interrupted.into()); 10_000];
    for cut in [0, 1, LIST.len()] {
        let (first, rest) = LIST.split_at(cut);
        let mut pieces = interrupted.clone();
        pieces.extend(
            [first, rest]
                .into_iter()
                .filter(|piece| !piece.is_empty())
                .map(Ok),
        );
        pieces.extend(interrupted.clone());
        let (outcome, out) = run_of(&pieces, Writer::willing());
        assert_eq!((outcome, out.taken.as_slice()), (Ok(()), DRAWN), "{cut}");
    }
}

/// The same for a reader that returned many bytes before, in many reads.
#[test]
fn a_reader_may_be_interrupted_after_many_bytes() {
    let entrant = vec![b'x'; 9_000_001];
    let mut pieces = Vec::new();
    for piece in entrant.chunks(10_000) {
        pieces.extend([Err(ErrorKind::Interrupted.into()), Ok(piece)]);
    }
    let (outcome, out) = run_of(&pieces, Writer::willing());
    assert_eq!((outcome, out.taken.len()), (Ok(()), entrant.len() + 1));
}

/// Each power of two up to 2^22 with its neighbours, and one much larger size.
#[test]
fn lists_of_every_size_around_that_of_a_piece() {
    let powers = (12..=22).map(|bit| 1 << bit);
    let near_powers = powers.flat_map(|power: usize| [power - 1, power, power + 1]);
    for size in near_powers.chain([100_000, 70_000_001]) {
        let entrant = vec![b'x'; size];
        let mut out = Writer::willing();
        let outcome = run(&arguments("all"), &mut entrant.as_slice(), &mut out);
        assert_eq!((outcome, out.taken.len()), (Ok(()), size + 1), "{size}");
        assert!(
            out.taken.strip_suffix(b"\n") == Some(entrant.as_slice()),
            "{size}"
        );
    }
}

/// A reader that returns one byte at a time fails at any read, also where it would end, with an
/// error of any kind. Only an interrupted read is repeated.
#[test]
fn a_read_that_fails_by_any_kind_of_error() {
    for fault in faults() {
        let kind = fault.kind();
        let error = match kind {
            ErrorKind::Interrupted => None,
            ErrorKind::OutOfMemory => Some(LotsError::Memory),
            _ => Some(LotsError::Read),
        };
        for read in 0..=LIST.len() {
            let mut pieces: Vec<_> = LIST.chunks(1).map(Ok).collect();
            pieces.insert(read, Err(fault));
            let (outcome, out) = run_of(&pieces, Writer::willing());
            assert_eq!(outcome.err(), error, "{fault:?} at {read}");
            let taken = if error.is_none() { DRAWN } else { b"" };
            assert_eq!(out.taken, taken, "{fault:?} at {read}");
            assert_eq!(out.calls.is_empty(), error.is_some());
        }
    }
}

#[test]
fn a_write_or_flush_that_fails_by_any_kind_of_error() {
    fails_with_its_writer(DRAWN, LotsError::Write, |out| {
        run(&arguments("all"), &mut &*LIST, out)
    });
}

#[test]
fn a_report_that_fails_by_any_kind_of_error() {
    let line = b"lots: line 12 is empty\n";
    reports_without_its_writer(line, 4, |err| report(Err(LotsError::EmptyLine(12)), err));
}

#[test]
fn a_failed_write_is_an_error() {
    let all = Does::Takes(usize::MAX);
    for (write, flush, taken, calls) in [
        (Does::Takes(0), all, 0, 1),
        (Does::Fails(ErrorKind::BrokenPipe.into()), all, 0, 1),
        (all, Does::Fails(ErrorKind::Other.into()), 20, 2),
    ] {
        let (outcome, out) = run_of(&[Ok(LIST)], Writer::new(write, flush));
        assert_eq!(outcome, Err(LotsError::Write));
        assert_eq!((out.taken.len(), out.calls.len()), (taken, calls));
    }
    let (outcome, out) = run_of(&[Ok(LIST)], Writer::new(Does::Takes(1), all));
    assert_eq!((outcome, out.taken.as_slice()), (Ok(()), DRAWN));
}

#[test]
fn other_arguments_are_refused_before_anything_is_read() {
    for words in [
        vec![],
        vec!["seed"],
        vec!["", "all"],
        vec!["seed", ""],
        vec!["seed", "+1"],
        vec!["seed", "-1"],
        vec!["seed", "ALL"],
        vec!["seed", " 1"],
        vec!["seed", "99999999999999999999"],
        vec!["seed", "1", "1"],
    ] {
        let words: Vec<String> = words.into_iter().map(String::from).collect();
        let mut out = Writer::willing();
        assert_eq!(run(&words, &mut Unread, &mut out), Err(LotsError::Usage));
        assert!(out.calls.is_empty(), "{words:?}");
    }
}

/// What may come before or after an argument: line ends, a NUL, non-ASCII marks and letters.
const STRANGE: [&str; 12] = [
    " ",
    "\t",
    "\r",
    "\n",
    "\0",
    "\u{7f}",
    "\u{e9}",
    "\u{301}",
    "\u{2212}",
    "\u{feff}",
    "\u{ff15}",
    "\u{10ffff}",
];

/// Something strange in place of an argument, before it and after it.
fn strange_words(word: &str) -> Vec<String> {
    let beside = |strange: &&str| [format!("{strange}{word}"), format!("{word}{strange}")];
    let alone = STRANGE.iter().map(|strange| (*strange).to_string());
    STRANGE.iter().flat_map(beside).chain(alone).collect()
}

/// As a count they are errors, whatever the seed is, and nothing is read. As a seed, each draws
/// another order, and has the same errors as any seed.
#[test]
fn strange_seeds_and_counts() {
    let list: Vec<u8> = (b'a'..=b'z').flat_map(|letter| [letter, b'\n']).collect();
    let mut orders = HashSet::new();
    for seed in strange_words("seed").into_iter().chain(["seed".into()]) {
        let outcome = |count: &str, mut list: &[u8]| {
            let mut out = Writer::willing();
            let ended = run(&[seed.clone(), count.into()], &mut list, &mut out);
            ended.map(|()| out.taken)
        };
        for count in strange_words("1").into_iter().chain(strange_words("all")) {
            let ended = run(&[seed.clone(), count], &mut Unread, &mut Writer::willing());
            assert_eq!(ended, Err(LotsError::Usage), "{seed:?}");
        }
        let (entrants, count) = (26, 27);
        let too_few = LotsError::TooFew { entrants, count };
        assert_eq!(outcome("27", &list), Err(too_few));
        assert_eq!(outcome("1", b"a\n\n"), Err(LotsError::EmptyLine(2)));
        let all = outcome("all", &list).unwrap();
        assert_eq!(outcome("26", &list).as_ref(), Ok(&all));
        assert!(orders.insert(all), "{seed:?}");
    }
}

/// Lines keep each byte but the line feed, whatever comes before or after them.
#[test]
fn strange_lines() {
    let mut beside: Vec<Vec<u8>> = vec![vec![0xff], vec![0xfe, 0xff], vec![0xc3]];
    beside.extend(
        STRANGE
            .iter()
            .filter(|word| **word != "\n")
            .map(|word| word.as_bytes().to_vec()),
    );
    for strange in beside {
        for line in [
            &strange[..],
            &[&strange, b"a".as_slice()].concat(),
            &[b"a", &strange[..]].concat(),
        ] {
            let (list, line_feed) = ([line, b"\n", line].concat(), [line, b"\n"].concat());
            let (outcome, out) = run_of(&[Ok(&list)], Writer::willing());
            assert_eq!(
                (outcome, out.taken),
                (Ok(()), line_feed.repeat(2)),
                "{line:?}"
            );
            let empty = [&line_feed, &line_feed, b"\n".as_slice()].concat();
            let (outcome, out) = run_of(&[Ok(&empty)], Writer::willing());
            assert_eq!(
                (outcome, out.calls.len()),
                (Err(LotsError::EmptyLine(3)), 0)
            );
        }
    }
}

#[test]
fn counts_are_digits_or_all() {
    for (count, lines) in [("all", 10), ("0", 0), ("3", 3), ("010", 10), ("0000", 0)] {
        let mut out = Writer::willing();
        assert_eq!(run(&arguments(count), &mut &*LIST, &mut out), Ok(()));
        assert_eq!(out.taken, DRAWN[..2 * lines], "{count}");
    }
    for (count, list, error) in [
        (
            "11",
            LIST,
            LotsError::TooFew {
                entrants: 10,
                count: 11,
            },
        ),
        (
            "1",
            b"",
            LotsError::TooFew {
                entrants: 0,
                count: 1,
            },
        ),
        ("9", b"a\n\nb", LotsError::EmptyLine(2)),
    ] {
        let mut out = Writer::willing();
        assert_eq!(run(&arguments(count), &mut &*list, &mut out), Err(error));
        assert!(out.calls.is_empty());
    }
}
