//! A run returns `Memory` and writes nothing, whichever of its allocations fails.

#[path = "common/refusing.rs"]
mod refusing;

use draw::run::run;
use draw::DrawError;
use refusing::{refused_above, refused_after, refused_once};

/// The outcome if an allocation fails after `requests` successful ones, and how much was written.
/// Either one allocation fails or all later ones. `words` are requests to the program, each of
/// which is made 300 times.
fn run_after(
    requests: usize,
    once: bool,
    count: &str,
    words: &[&str],
) -> (Result<(), DrawError>, usize) {
    let head = ["wyrand", "d29b42879be2895f", "plain", count];
    let words = words.iter().flat_map(|word| [*word; 300]);
    let arguments: Vec<String> = head.into_iter().chain(words).map(String::from).collect();
    let mut out = vec![0; 100_000];
    let mut rest = out.as_mut_slice();
    let call = || run(&arguments, &mut rest);
    let outcome = if once {
        refused_once(requests, call)
    } else {
        refused_after(requests, call)
    };
    let left = rest.len();
    (outcome, 100_000 - left)
}

/// The number of allocations that fail, in one run after another, until a run writes its text.
fn refusals(once: bool, count: &str, words: &[&str]) -> usize {
    let outcomes = (0..).map(|requests| run_after(requests, once, count, words));
    let mut refused = 0;
    for outcome in outcomes.take_while(|outcome| outcome.0.is_err()) {
        assert_eq!(outcome, (Err(DrawError::Memory), 0));
        refused += 1;
    }
    refused
}

#[test]
fn each_request_may_be_refused() {
    // What grows is a list of calls, a list of answers, a list of items and a text.
    for (count, words, least) in [
        (
            "1000",
            &["u128", "i128", "bool", "u8:3..3", "shuffle"][..],
            25,
        ),
        ("1000", &[], 10),
        ("0", &["u64"], 10),
        ("0", &["bool"], 10),
        ("0", &["u8:3..3"], 10),
        ("3", &["shuffle"], 10),
    ] {
        let refused = refusals(false, count, words);
        assert!(refused > least, "{refused}");
        assert_eq!(refusals(true, count, words), refused);
    }
}

#[test]
fn the_first_four_arguments_take_no_memory() {
    assert_eq!(
        run_after(0, false, "1001", &["u8"]),
        (Err(DrawError::BadWord(4)), 0)
    );
    assert_eq!(run_after(0, false, "0", &[]), (Ok(()), 0));
}

/// 1000 items have eight bytes each. Each list and text may double its capacity.
#[test]
fn no_request_is_for_much_more_than_is_needed() {
    for (count, most) in [("0", 1000), ("10", 1000), ("1000", 16_000)] {
        let arguments = [
            "wyrand",
            "d29b42879be2895f",
            "buffered",
            count,
            "u128",
            "shuffle",
        ];
        let arguments = arguments.map(String::from);
        let mut out = vec![0; 10_000];
        let outcome = refused_above(most, || run(&arguments, &mut out.as_mut_slice()));
        assert_eq!(outcome, Ok(()), "{count}");
    }
}
