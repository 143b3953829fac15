//! Commands of every size: none fails without a cause. No clause of the proved source states this.

#[path = "common/sizes.rs"]
mod sizes;
#[path = "common/writer.rs"]
mod writer;

use draw::run::{report, run};
use draw::DrawError;
use nanorand_proved::replay::{replay, Answer, Call, Kind, Span};
use nanorand_proved::{BufferedRng, ChaCha12, ChaCha20, ChaCha8, Pcg64, Rng, WyRand};
use sizes::sizes;
use std::fmt::Write;
use std::io::ErrorKind;
use std::ops::Bound::{Excluded, Included, Unbounded};
use writer::{Does, Writer};

/// Requests of all kinds, and the calls that they stand for.
const REQUESTS: [(&str, Call); 24] = [
    ("i8", Call::Gen(Kind::I8)),
    ("i16", Call::Gen(Kind::I16)),
    ("i32", Call::Gen(Kind::I32)),
    ("i64", Call::Gen(Kind::I64)),
    ("i128", Call::Gen(Kind::I128)),
    ("isize", Call::Gen(Kind::Isize)),
    ("u8", Call::Gen(Kind::U8)),
    ("u16", Call::Gen(Kind::U16)),
    ("u32", Call::Gen(Kind::U32)),
    ("u64", Call::Gen(Kind::U64)),
    ("u128", Call::Gen(Kind::U128)),
    ("usize", Call::Gen(Kind::Usize)),
    ("bool", Call::Gen(Kind::Bool)),
    ("shuffle", Call::Shuffle),
    (
        "i8:-3..=4",
        Call::Range(Span::I8(Included(-3), Included(4))),
    ),
    (
        "i16:..300",
        Call::Range(Span::I16(Unbounded, Excluded(300))),
    ),
    ("i32:-7..", Call::Range(Span::I32(Included(-7), Unbounded))),
    ("i64:..=0", Call::Range(Span::I64(Unbounded, Included(0)))),
    ("isize:..", Call::Range(Span::Isize(Unbounded, Unbounded))),
    ("u8:5..5", Call::Range(Span::U8(Included(5), Excluded(5)))),
    (
        "u16:9..=60000",
        Call::Range(Span::U16(Included(9), Included(60_000))),
    ),
    (
        "u32:100000..",
        Call::Range(Span::U32(Included(100_000), Unbounded)),
    ),
    (
        "u64:..=4294967296",
        Call::Range(Span::U64(Unbounded, Included(4_294_967_296))),
    ),
    (
        "usize:1..7",
        Call::Range(Span::Usize(Included(1), Excluded(7))),
    ),
];

/// The text of answers and items.
fn text_of(answers: &[Answer], items: &[u64]) -> String {
    let mut text = String::new();
    for answer in answers {
        match answer {
            Answer::Unsigned(number) => writeln!(text, "{number}"),
            Answer::Signed(number) => writeln!(text, "{number}"),
            Answer::Truth(truth) => writeln!(text, "{truth}"),
            Answer::Empty => writeln!(text, "empty"),
            Answer::Exhausted => writeln!(text, "exhausted"),
            Answer::Shuffled => writeln!(text, "shuffled"),
        }
        .expect("a text grows");
    }
    if !items.is_empty() {
        let items: Vec<String> = items.iter().map(u64::to_string).collect();
        writeln!(text, "items: {}", items.join(" ")).expect("a text grows");
    }
    text
}

/// What a command has to draw.
struct Asked<'a> {
    is_buffered: bool,
    calls: &'a [Call],
    count: u64,
}

impl Asked<'_> {
    /// The text that the library's `replay` produces.
    fn text_by<G: Rng<OUTPUT>, const OUTPUT: usize>(&self, rng: G) -> String {
        if self.is_buffered {
            self.replayed(BufferedRng::new(rng))
        } else {
            self.replayed(rng)
        }
    }

    fn replayed<G: Rng<OUTPUT>, const OUTPUT: usize>(&self, mut rng: G) -> String {
        let mut items: Vec<u64> = (0..self.count).collect();
        let mut answers = vec![Answer::Empty; self.calls.len()];
        replay(&mut rng, self.calls, &mut items, &mut answers);
        text_of(&answers, &items)
    }
}

/// The generators and modes that do not compute a ChaCha block for each number.
const FAST: [u64; 7] = [0, 1, 2, 3, 5, 7, 9];

/// The generators and modes, of ten, to test with this many requests or items: all with few, a fast
/// one with many.
fn generators_for(size: usize, rng: &mut WyRand) -> Vec<u64> {
    if size < 100 {
        (0..10).collect()
    } else {
        vec![FAST[rng.range(0..FAST.len())]]
    }
}

/// For a generator and a mode, by number, and a seed: the first three arguments, and the text of
/// these calls.
fn command_of(number: u64, seed: u64, calls: &[Call], count: u64) -> (String, String) {
    let is_buffered = number % 2 == 1;
    let asked = Asked {
        is_buffered,
        calls,
        count,
    };
    let (key, bytes, zeros) = ([0; 32], seed.to_le_bytes(), "0".repeat(64));
    let (name, before, after, text) = match number / 2 {
        0 => ("wyrand", "", "", asked.text_by(WyRand::new_seed(seed))),
        1 => {
            let rng = Pcg64::new_seed(seed.into());
            ("pcg64", "", &zeros[..16], asked.text_by(rng))
        }
        2 => {
            let rng = ChaCha8::new_key(key, bytes);
            ("chacha8", &*zeros, "", asked.text_by(rng))
        }
        3 => {
            let rng = ChaCha12::new_key(key, bytes);
            ("chacha12", &*zeros, "", asked.text_by(rng))
        }
        _ => {
            let rng = ChaCha20::new_key(key, bytes);
            ("chacha20", &*zeros, "", asked.text_by(rng))
        }
    };
    let mode = if is_buffered { "buffered" } else { "plain" };
    let seed = seed.swap_bytes();
    (format!("{name} {before}{seed:016x}{after} {mode}"), text)
}

fn words_of(line: &str) -> Vec<String> {
    line.split_whitespace().map(String::from).collect()
}

/// Asserts that the text for these arguments is written in one call and then flushed, and that a
/// failed flush is an error.
fn writes(arguments: &[String], text: &str) {
    let fails = Does::Fails(ErrorKind::BrokenPipe.into());
    for (flush, outcome) in [(Does::Takes(0), Ok(())), (fails, Err(DrawError::Write))] {
        let mut out = Writer::new(Does::Takes(usize::MAX), flush);
        assert_eq!(run(arguments, &mut out), outcome, "{}", text.len());
        assert!(out.taken == text.as_bytes(), "{}", text.len());
        let calls = [Some(text.len()), None];
        assert_eq!(out.calls, calls[usize::from(text.is_empty())..]);
    }
}

/// Asserts that the argument with this number, from 1, is an error, and that nothing is written.
fn is_refused(arguments: &[String], number: usize) {
    let mut out = Writer::willing();
    assert_eq!(run(arguments, &mut out), Err(DrawError::BadWord(number)));
    assert_eq!(out.calls, []);
}

/// Commands with every number of requests are answered. The more requests, the fewer items. The
/// error for a bad request after them, or among them, has its number.
#[test]
fn all_numbers_of_requests() {
    let mut rng = WyRand::new_seed(1);
    for size in sizes(32_769).into_iter().chain([131_073]) {
        let drawn = (0..size).map(|_| REQUESTS[rng.range(0..24_usize)]);
        let (words, calls): (Vec<&str>, Vec<Call>) = drawn.unzip();
        let count = rng.range(0..=(2000 / size.max(1)).min(1000));
        let count = u64::try_from(count).expect("a count");
        for number in generators_for(size, &mut rng) {
            let (start, text) = command_of(number, rng.generate(), &calls, count);
            let mut arguments = words_of(&format!("{start} {count} {}", words.join(" ")));
            writes(&arguments, &text);
            arguments.push("u9".to_owned());
            is_refused(&arguments, size + 5);
            let among = rng.range(0..=size);
            arguments[among + 4] = "u9".to_owned();
            is_refused(&arguments, among + 5);
        }
    }
}

/// Every number of items is shuffled, with up to three other requests before and after.
#[test]
fn all_numbers_of_items() {
    let mut rng = WyRand::new_seed(2);
    for size in 0..=1000 {
        let count = u64::try_from(size).expect("a count");
        let others = size % 4;
        let drawn = (0..others).map(|_| REQUESTS[rng.range(0..REQUESTS.len())]);
        let mut requests: Vec<(&str, Call)> = drawn.collect();
        requests.insert(rng.range(0..=others), ("shuffle", Call::Shuffle));
        let (words, calls): (Vec<&str>, Vec<Call>) = requests.into_iter().unzip();
        for number in generators_for(size, &mut rng) {
            let (start, text) = command_of(number, 7, &calls, count);
            let arguments = words_of(&format!("{start} {count} {}", words.join(" ")));
            writes(&arguments, &text);
        }
    }
}

/// Each generator and mode accepts any seed, also with upper-case digits, and shuffles many items.
#[test]
fn all_generators() {
    let calls = [Call::Gen(Kind::U64), Call::Shuffle];
    for number in 0..10 {
        for seed in [0, 1, 1 << 32, 0x0123_4567_89ab_cdef, u64::MAX] {
            for count in [0, 1, 99, 100, 128, 500, 1000] {
                let (start, text) = command_of(number, seed, &calls, count);
                let mut arguments = words_of(&format!("{start} {count} u64 shuffle"));
                writes(&arguments, &text);
                arguments[1].make_ascii_uppercase();
                writes(&arguments, &text);
            }
        }
    }
}

/// Good and bad arguments of every length.
#[test]
fn all_lengths_of_arguments() {
    for length in sizes(65_537) {
        let zeros = "0".repeat(length);
        let start = "wyrand d29b42879be2895f plain";
        let ranges = format!("u8:{zeros}7..={zeros}7 i64:-{zeros}8..-{zeros}7");
        let arguments = words_of(&format!("{start} {zeros}2 {ranges}"));
        writes(&arguments, "7\n-8\nitems: 0 1\n");
        let one_more = words_of(&format!("{start} {zeros}{zeros}2 u8:7..=7"));
        writes(&one_more, "7\nitems: 0 1\n");
        for (before, after) in [("u8", "8"), ("u8:", "256.."), ("i8:-1..", "x")] {
            let arguments = words_of(&format!("{start} 0 {before}{zeros}{after} u8"));
            is_refused(&arguments, 5);
        }
    }
}

/// Texts of every length are written in one call.
#[test]
fn all_lengths_of_texts() {
    for length in sizes(131_073).into_iter().filter(|length| *length > 1) {
        let odd = length % 2;
        let requests = "u8:10..=10 ".repeat(odd) + &"u8:7..=7 ".repeat(length / 2 - odd);
        let arguments = words_of(&format!("wyrand d29b42879be2895f plain 0 {requests}"));
        writes(
            &arguments,
            &("10\n".repeat(odd) + &"7\n".repeat(length / 2 - odd)),
        );
    }
}

/// A bad argument is reported with its number, whatever that is. Nothing is flushed.
#[test]
fn all_numbers_are_reported() {
    for number in sizes(usize::MAX) {
        let mut line = Writer::willing();
        assert_eq!(report(Err(DrawError::BadWord(number)), &mut line), 2);
        assert_eq!(line.taken, format!("draw: bad word {number}\n").as_bytes());
        assert!(!line.calls.contains(&None));
    }
}
