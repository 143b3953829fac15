//! A run returns `Memory` and writes nothing, whichever of its allocations fails.

#[path = "common/refusing.rs"]
mod refusing;

use lots::run::run;
use lots::{draw_places, LotsError};
use refusing::{refused_above, refused_after, refused_once};
use std::io::{Read, Result};

/// A reader that returns at most this many bytes at each read.
struct Slow<'a>(&'a [u8], usize);

impl Read for Slow<'_> {
    fn read(&mut self, out: &mut [u8]) -> Result<usize> {
        let size = self.1.min(out.len());
        self.0.read(&mut out[..size])
    }
}

/// The outcome for a list that comes in pieces if an allocation fails after `requests` successful
/// ones, and how much was written. Either one allocation fails or all later ones.
fn run_after(
    requests: usize,
    once: bool,
    piece: usize,
) -> (std::result::Result<(), LotsError>, usize) {
    let arguments = ["seed".to_string(), "all".to_string()];
    let list: Vec<u8> = (0..5000)
        .flat_map(|number| format!("{number}\n").into_bytes())
        .collect();
    let mut out = vec![0; list.len()];
    let mut rest = out.as_mut_slice();
    let call = || run(&arguments, &mut Slow(&list, piece), &mut rest);
    let outcome = if once {
        refused_once(requests, call)
    } else {
        refused_after(requests, call)
    };
    let left = rest.len();
    (outcome, list.len() - left)
}

#[test]
fn each_request_may_be_refused() {
    for (piece, once) in [1, 7, 40, 63, 64, 1000, 100_000]
        .into_iter()
        .flat_map(|piece| [(piece, false), (piece, true)])
    {
        let mut count = 0;
        for outcome in (0..)
            .map(|requests| run_after(requests, once, piece))
            .take_while(|outcome| outcome.0.is_err())
        {
            assert_eq!(outcome, (Err(LotsError::Memory), 0), "{piece}");
            count += 1;
        }
        // What grows is two lists and a text.
        assert!(count > 20, "{count}");
        assert_eq!(run_after(count, once, piece), (Ok(()), 23890));
    }
}

#[test]
fn a_draw_of_places_takes_no_memory() {
    let mut places = [0; 100];
    assert_eq!(
        refused_after(0, || draw_places("a seed", &mut places, 100)),
        Ok(())
    );
}

/// An entrant has 16 bytes besides its text. Each list and text may double its capacity.
#[test]
fn no_request_is_for_much_more_than_is_needed() {
    let arguments = ["seed", "all"].map(String::from);
    for (entrants, most) in [(0, 1000), (1, 1000), (1000, 2 * 16_000)] {
        let list = "1234567\n".repeat(entrants);
        let mut out = vec![0; list.len()];
        let outcome = refused_above(most, || {
            run(&arguments, &mut list.as_bytes(), &mut out.as_mut_slice())
        });
        assert_eq!(outcome, Ok(()), "{entrants}");
    }
}
