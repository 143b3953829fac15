//! To write and to check a record, and to write an announcement, returns `Memory`, and writes nothing,
//! whichever allocation fails.

#[path = "common/records.rs"]
mod records;
#[path = "common/refusing.rs"]
mod refusing;

use lots::announcement::{announcement, Plan};
use lots::arguments::{Count, Request};
use lots::program::{check_record, write_announcement, write_record};
use lots::record::{record, Source};
use lots::{sha256, CheckError, LotsError};
use records::{announced, recorded};
use refusing::{refused_above, refused_after, refused_once};

const MEMORY: CheckError = CheckError::Draw(LotsError::Memory);

/// A plan with texts of several kinds.
const ODD: Plan<'_> = Plan {
    occasion: "Zo\u{eb} \"a\\b\u{200d}",
    winners: 1000,
    reserves: 5,
    source: "\u{200d}\u{200d}",
    form: "a\tb",
    example: "\\x41",
    time: "noon",
};

/// A list with entrants of several kinds, and more than a record shows.
fn list() -> Vec<u8> {
    let mut list = "Zo\u{eb} \"a\\b\u{200d}\n".repeat(1010).into_bytes();
    list.extend(b"\xff\x01\n");
    list
}

fn outcome<T>(requests: usize, once: bool, call: impl FnOnce() -> T) -> T {
    if once {
        refused_once(requests, call)
    } else {
        refused_after(requests, call)
    }
}

/// Asserts that the call fails with this error for each number of successful allocations below some
/// number, which is returned, and that it succeeds from there on. The call is given its writer.
fn fails_until_it_does_not<E: PartialEq + std::fmt::Debug>(
    once: bool,
    error: &E,
    call: impl Fn(&mut Vec<u8>) -> Result<(), E>,
) -> usize {
    // Writing to it allocates nothing.
    let mut out = Vec::with_capacity(100_000);
    for requests in 0.. {
        match outcome(requests, once, || call(&mut out)) {
            Ok(()) => {
                assert!(!out.is_empty());
                return requests;
            }
            Err(found) => assert!(found == *error && out.is_empty(), "{requests}: {found:?}"),
        }
    }
    unreachable!("it never succeeds")
}

#[test]
fn each_request_may_be_refused() {
    let list = list();
    let (seed, count) = ("a \u{200d} seed", Count::Of(1005));
    let request = Request { seed, count };
    let named = announcement(&ODD, &list).unwrap().into_bytes();
    let made = Source {
        seed,
        count,
        announcement: Some(sha256::digest(&named)),
        program: None,
    };
    let text = record(&made, &list).unwrap();
    for once in [false, true] {
        for named in [None, Some(&*named)] {
            let requests = fails_until_it_does_not(once, &MEMORY, |out| {
                write_record(&request, named, &mut &*list, out)
            });
            assert!(
                requests > if named.is_some() { 60 } else { 30 },
                "{requests}"
            );
            let requests = fails_until_it_does_not(once, &MEMORY, |out| {
                check_record(text.as_bytes(), named, &mut &*list, out)
            });
            assert!(
                requests > if named.is_some() { 60 } else { 30 },
                "{requests}"
            );
        }
        let requests = fails_until_it_does_not(once, &LotsError::Memory, |out| {
            write_announcement(&ODD, &mut &*list, out)
        });
        assert!(requests > 8, "{requests}");
    }
}

/// Where a text grows depends on the length of what stands before. So for some length of the seed each
/// append is the one for which there is no memory.
#[test]
fn memory_may_run_out_at_each_append() {
    let few = b"a\nab\xff\xff\n\"\x01\"\n".to_vec();
    let many = b"a\n".repeat(1001);
    let lengths = (1..=400).map(|length| (length, &few));
    for (length, list) in lengths.chain((3600..=3720).step_by(5).map(|length| (length, &many))) {
        let seed = "s".repeat(length);
        let request = Request {
            seed: &seed,
            count: Count::All,
        };
        fails_until_it_does_not(true, &MEMORY, |out| {
            write_record(&request, None, &mut &**list, out)
        });
    }
}

/// The same for announcements, and for each of their texts as it is read back.
#[test]
fn memory_may_run_out_at_each_append_to_an_announcement() {
    let list = b"a\nb\n";
    for length in 1..=500 {
        let text = "s".repeat(length);
        let plan = Plan {
            occasion: &text,
            winners: 1,
            reserves: 1,
            ..ODD
        };
        fails_until_it_does_not(true, &LotsError::Memory, |out| {
            write_announcement(&plan, &mut &list[..], out)
        });
        if length % 10 == 0 {
            let named = announcement(&plan, list).unwrap();
            let (seed, count) = ("seed", Count::All);
            fails_until_it_does_not(true, &MEMORY, |out| {
                let request = Request { seed, count };
                write_record(&request, Some(named.as_bytes()), &mut &list[..], out)
            });
        }
    }
}

/// A text that is no announcement is refused without much memory, whatever numbers it names.
#[test]
fn no_announcement_asks_for_much_more_than_is_needed() {
    let text = announced(1, 0, b"a\n").unwrap();
    let text = text.replace("winners: 1", "winners: 18446744073709551615");
    let (seed, count) = ("seed", Count::All);
    let mut out = Vec::new();
    let found = refused_above(1000, || {
        let request = Request { seed, count };
        write_record(&request, Some(text.as_bytes()), &mut &b"a\n"[..], &mut out)
    });
    assert_eq!(found, Err(CheckError::NotAnnounced));
    assert!(out.is_empty());
}

/// What is no record is refused without much memory, whatever numbers it names.
#[test]
fn no_request_is_for_much_more_than_is_needed() {
    let text = recorded("seed", Count::Of(1), b"a\n").unwrap();
    let text = text.replace("drawn: 1", "drawn: 18446744073709551615");
    let (mut out, few) = (
        Vec::new(),
        LotsError::TooFew {
            entrants: 1,
            count: usize::MAX,
        },
    );
    let found = refused_above(1000, || {
        check_record(text.as_bytes(), None, &mut &b"a\n"[..], &mut out)
    });
    if usize::BITS == 64 {
        assert_eq!(found, Err(CheckError::Draw(few)));
    }
    assert!(out.is_empty());
}
