//! A whole run: what arguments mean, which arguments are errors, and writers that fail.

#[path = "common/formats.rs"]
mod formats;
#[path = "common/writer.rs"]
mod writer;

use draw::run::{report, run};
use draw::DrawError;
use formats::is_displayed;
use std::io::ErrorKind;
use writer::{fails_with_its_writer, reports_without_its_writer, Does, Writer};

const SEED: &str = "d29b42879be2895f";

/// The text that these arguments ask for.
fn text_of(arguments: &[&str]) -> Result<String, DrawError> {
    let arguments: Vec<String> = arguments.iter().copied().map(String::from).collect();
    let mut out = Writer::willing();
    let outcome = run(&arguments, &mut out);
    let calls = match outcome {
        Ok(()) if out.taken.is_empty() => vec![None],
        Ok(()) => vec![Some(out.taken.len()), None],
        Err(_) => vec![],
    };
    assert_eq!(out.calls, calls, "{arguments:?}");
    outcome.map(|()| String::from_utf8(out.taken).unwrap())
}

/// The same for arguments in one line.
fn text_of_line(line: &str) -> Result<String, DrawError> {
    text_of(&line.split(' ').collect::<Vec<_>>())
}

/// Whether the program accepts a request, which is the fifth argument.
fn is_request(text: &str) -> bool {
    let found = text_of(&["wyrand", SEED, "plain", "0", text]);
    assert!(
        matches!(found, Ok(_) | Err(DrawError::BadWord(5))),
        "{text}"
    );
    found.is_ok()
}

/// The numbers are from the repository's `tests/answers/definitions.py`. Those of `ChaCha` are
/// published.
#[test]
fn generators_modes_and_requests() {
    let zeros = "0".repeat(80);
    for (line, text) in [
        (
            format!("wyrand {SEED} plain 0 u64"),
            "16646288086500911322\n",
        ),
        (
            format!("wyrand {SEED} buffered 0 u8 u8 u16"),
            "218\n40\n41140\n",
        ),
        (
            format!("wyrand {SEED} plain 2 u8:5..5 u8"),
            "empty\n218\nitems: 0 1\n",
        ),
        (
            format!(
                "wyrand {SEED} plain 0 i8 i16 i32 i64 i128 isize u8 u16 u32 u64 u128 usize bool"
            ),
            "-38\n-4820\n479898944\n-8288733542676170017\n2098628135384877439060602308257402762\n\
             -2133170802787781948\n97\n32089\n102022102\n4256399017874265281\n\
             310249160357949304646372891192473625865\n10150652904670825352\ntrue\n",
        ),
        (
            format!("pcg64 {} plain 0 u8 i16 bool", &zeros[..32]),
            "63\n-25903\nfalse\n",
        ),
        (
            format!("pcg64 {} buffered 0 u8 u8 u16", &zeros[..32]),
            "63\n117\n16258\n",
        ),
        (
            format!("chacha8 {zeros} buffered 0 u8 u8 u8 u8"),
            "62\n0\n239\n47\n",
        ),
        (
            format!("chacha12 {zeros} buffered 0 u8 u8 u8 u8"),
            "155\n244\n154\n106\n",
        ),
        (
            format!("chacha20 {zeros} buffered 3 shuffle"),
            "shuffled\nitems: 1 0 2\n",
        ),
        (format!("chacha20 {zeros} plain 0"), ""),
    ] {
        assert_eq!(text_of_line(&line).as_deref(), Ok(text), "{line}");
    }
}

#[test]
fn the_first_argument_that_cannot_be_read_is_named() {
    assert_eq!(text_of(&[]), Err(DrawError::BadWord(1)));
    for (line, number) in [
        ("WyRand d2 neither 1001 u9", 1),
        ("wyrand d2 neither 1001 u9", 2),
        ("wyrand d29b42879be2895f Plain 1001 u9", 3),
        ("wyrand d29b42879be2895f plain 1001 u9", 4),
        ("wyrand d29b42879be2895f plain", 4),
        ("wyrand d29b42879be2895f plain 1000 u9", 5),
        ("wyrand d29b42879be2895f plain 0 u8 u8 bool: u9", 7),
    ] {
        assert_eq!(
            text_of_line(line),
            Err(DrawError::BadWord(number)),
            "{line}"
        );
    }
}

/// What may come before or after an argument: line ends, a NUL, non-ASCII marks and letters, and
/// nothing.
const STRANGE: [&str; 13] = [
    "",
    " ",
    "\t",
    "\r",
    "\n",
    "\0",
    "\u{7f}",
    "\u{e9}",
    "\u{301}",
    "\u{2212}",
    "\u{feff}",
    "\u{ff15}",
    "\u{10ffff}",
];

/// Something strange in place of each argument, before it or after it, and again for the last
/// argument, with each generator and mode.
#[test]
fn strange_arguments_are_refused() {
    let seeds = [8, 16, 40, 40, 40].map(|bytes| "5a".repeat(bytes));
    let names = ["wyrand", "pcg64", "chacha8", "chacha12", "chacha20"];
    for (name, seed) in names.into_iter().zip(&seeds) {
        for mode in ["plain", "buffered"] {
            let good = [name, seed, mode, "2", "u8", "i16:-3..5", "shuffle"];
            assert!(text_of(&good).is_ok());
            for (place, word) in good.iter().enumerate() {
                for strange in STRANGE {
                    let before = format!("{strange}{word}");
                    let after = format!("{word}{strange}");
                    for bad in [strange, &*before, &*after] {
                        let mut words = good;
                        words[6] = bad;
                        words[place] = bad;
                        let wanted = DrawError::BadWord(place + 1);
                        if bad != *word {
                            assert_eq!(text_of(&words), Err(wanted), "{words:?}");
                        }
                    }
                }
            }
        }
    }
}

#[test]
fn seeds_have_two_digits_a_byte() {
    for (generator, bytes) in [
        ("wyrand", 8),
        ("pcg64", 16),
        ("chacha8", 40),
        ("chacha12", 40),
        ("chacha20", 40),
    ] {
        let digits = "0123456789abcdef".repeat(5);
        let seed = &digits[..2 * bytes];
        let of_seed = |seed: &str| text_of(&[generator, seed, "plain", "0", "u64"]);
        assert_eq!(of_seed(seed), of_seed(&seed.to_uppercase()));
        for odd in [0, 1, 3] {
            let turned = |(place, digit): (usize, char)| match (place / 2 + odd) % 4 {
                0 | 1 => digit.to_ascii_uppercase(),
                _ => digit,
            };
            let mixed: String = seed.chars().enumerate().map(turned).collect();
            assert_eq!(of_seed(&mixed), of_seed(seed), "{mixed}");
        }
        for place in 0..seed.len() {
            let (before, after) = (&seed[..place], &seed[place + 1..]);
            assert_ne!(
                of_seed(seed),
                of_seed(&format!(
                    "{before}{}{after}",
                    if &seed[place..=place] == "0" {
                        'A'
                    } else {
                        '0'
                    }
                ))
            );
            for stranger in [
                "", "00", "g", "G", "/", ":", "@", "`", " ", "+", "-", "_", "x", "\0", "\u{e9}",
                "\u{ff11}",
            ] {
                let found = of_seed(&format!("{before}{stranger}{after}"));
                assert_eq!(found, Err(DrawError::BadWord(2)), "{stranger:?} at {place}");
            }
        }
        assert_eq!(of_seed(""), Err(DrawError::BadWord(2)));
    }
}

#[test]
fn counts_are_digits_up_to_a_thousand() {
    for (count, good) in [
        ("0", true),
        ("1", true),
        ("000", true),
        ("1000", true),
        ("0001000", true),
        ("1001", false),
        ("18446744073709551616", false),
        ("18446744073709551617", false),
        ("", false),
        ("+1", false),
        ("-0", false),
        ("1.0", false),
        ("1_0", false),
        (" 1", false),
        ("1 ", false),
        ("0x1", false),
        ("all", false),
    ] {
        let found = text_of(&["wyrand", SEED, "plain", count]);
        assert_eq!(
            found.err(),
            (!good).then_some(DrawError::BadWord(4)),
            "{count}"
        );
    }
}

/// The bounds of a type with ranges are exactly its minimum to its maximum.
#[test]
fn bounds_are_numbers_of_the_type() {
    for (name, low, high) in [
        ("u8", 0, u8::MAX.into()),
        ("u16", 0, u16::MAX.into()),
        ("u32", 0, u32::MAX.into()),
        ("u64", 0, u64::MAX.into()),
        ("usize", 0, usize::MAX as i128),
        ("i8", i8::MIN.into(), i8::MAX.into()),
        ("i16", i16::MIN.into(), i16::MAX.into()),
        ("i32", i32::MIN.into(), i32::MAX.into()),
        ("i64", i64::MIN.into(), i64::MAX.into()),
        ("isize", isize::MIN as i128, isize::MAX as i128),
    ] {
        let (below, above): (i128, i128) = (low - 1, high + 1);
        for bounds in [
            format!("{low}..={high}"),
            format!("{low}..{high}"),
            format!("..={high}"),
            format!("{low}.."),
            "..".into(),
            "000..001".into(),
        ] {
            assert!(is_request(&format!("{name}:{bounds}")), "{name}:{bounds}");
        }
        for bounds in [
            format!("{below}..={high}"),
            format!("{low}..={above}"),
            format!("{low}..{above}"),
            format!("{above}.."),
        ] {
            assert!(!is_request(&format!("{name}:{bounds}")), "{name}:{bounds}");
        }
        for bounds in [
            "", ".", "0", "0.0", "0...1", "0..==1", "=0..1", "+0..1", "0..+1", "0..=+1", " 0..1",
            "0..1 ", "a..b", "0..=", "0..1..2", "0_..1", "--1..0",
        ] {
            assert!(!is_request(&format!("{name}:{bounds}")), "{name}:{bounds}");
        }
        assert_eq!(is_request(&format!("{name}:-0..1")), low < 0, "{name}");
        assert!(is_request(name));
    }
}

#[test]
fn other_requests() {
    for (text, good) in [
        ("i128", true),
        ("u128", true),
        ("bool", true),
        ("shuffle", true),
        ("i128:0..1", false),
        ("u128:..", false),
        ("bool:..", false),
        ("shuffle:", false),
        ("shuffle:..", false),
        ("Shuffle", false),
        ("U8", false),
        ("u9", false),
        ("u8 ", false),
        ("", false),
        (":", false),
        (":0..1", false),
        ("f64", false),
        ("char", false),
    ] {
        assert_eq!(is_request(text), good, "{text}");
    }
}

/// Numbers are drawn within the bounds in the text, which are inclusive or exclusive as it says.
#[test]
fn ranges_are_those_of_their_text() {
    for (request, text) in [
        ("u32:7..=7", "7\n"),
        ("u64:..1", "0\n"),
        ("usize:9..10", "9\n"),
        ("u8:..=0", "0\n"),
        ("u8:255..", "255\n"),
        ("i8:-128..-127", "-128\n"),
        ("i16:..=-32768", "-32768\n"),
        ("i32:2147483647..", "2147483647\n"),
        ("i64:-0..1", "0\n"),
        ("isize:5..=5", "5\n"),
        ("u16:6..6", "empty\n"),
        ("i64:3..=2", "empty\n"),
    ] {
        let found = text_of(&["wyrand", SEED, "plain", "0", request]);
        assert_eq!(found.as_deref(), Ok(text), "{request}");
    }
}

#[test]
fn a_failed_write_is_an_error() {
    let arguments = ["wyrand", SEED, "plain", "3", "u64"].map(String::from);
    let text = "16646288086500911322\nitems: 0 1 2\n";
    let all = Does::Takes(usize::MAX);
    for (write, flush, outcome, taken) in [
        (Does::Takes(0), all, Err(DrawError::Write), 0),
        (
            Does::Fails(ErrorKind::BrokenPipe.into()),
            all,
            Err(DrawError::Write),
            0,
        ),
        (
            all,
            Does::Fails(ErrorKind::Other.into()),
            Err(DrawError::Write),
            text.len(),
        ),
        (Does::Takes(1), all, Ok(()), text.len()),
    ] {
        let mut out = Writer::new(write, flush);
        assert_eq!(run(&arguments, &mut out), outcome);
        assert_eq!(out.taken, text.as_bytes()[..taken]);
    }
}

#[test]
fn a_write_or_flush_that_fails_by_any_kind_of_error() {
    let arguments = ["wyrand", SEED, "plain", "2", "u8"].map(String::from);
    let text = b"218\nitems: 0 1\n";
    fails_with_its_writer(text, DrawError::Write, |out| run(&arguments, out));
}

#[test]
fn a_report_that_fails_by_any_kind_of_error() {
    let line = b"draw: bad word 12\n";
    reports_without_its_writer(line, 2, |err| report(Err(DrawError::BadWord(12)), err));
}

#[test]
fn errors_are_reported_in_one_line() {
    assert_eq!(
        report(Ok(()), &mut Writer::new(Does::Takes(0), Does::Takes(0))),
        0
    );
    for (error, status, text) in [
        (DrawError::BadWord(12), 2, "bad word 12"),
        (DrawError::Memory, 3, "no memory"),
        (DrawError::Write, 4, "write failed"),
    ] {
        for width in 0..=60 {
            is_displayed(&error, text, [width, 60 - width]);
        }
        let mut line = Vec::new();
        assert_eq!(report(Err(error), &mut line), status);
        assert_eq!(line, format!("draw: {text}\n").as_bytes());
        // The status is the same if the line cannot be written.
        assert_eq!(report(Err(error), &mut [].as_mut_slice()), status);
        let boxed: Box<dyn std::error::Error> = error.into();
        assert_eq!(boxed.to_string(), text);
        assert!(boxed.source().is_none());
    }
}

/// A seed has exactly as many digits as its generator needs: 16, 32 or 80.
#[test]
fn lengths_of_seeds() {
    let lengths = (0..=700).chain([4112, 65_536, 65_552, 65_568, 65_616, 1 << 20]);
    for length in lengths {
        let seed = "7".repeat(length);
        for (generator, digits) in [
            ("wyrand", 16),
            ("pcg64", 32),
            ("chacha8", 80),
            ("chacha12", 80),
            ("chacha20", 80),
        ] {
            let found = text_of(&[generator, &seed, "plain", "0", "u8"]);
            let wanted = length == digits;
            assert_eq!(found.is_ok(), wanted, "{generator} {length}");
            assert!(wanted || found == Err(DrawError::BadWord(2)), "{length}");
        }
    }
}
