//! How seeds and entrants are written in a record, so that everything in them shows.

#[path = "common/records.rs"]
mod records;

use lots::arguments::Count;
use lots::check::check;
use records::{digits, recorded};

/// The ranges of the characters that do not show, first and last, without surrogates.
const HIDDEN: [(u32, u32); 34] = [
    (0, 0x1f),
    (0x7f, 0xa0),
    (0xad, 0xad),
    (0x34f, 0x34f),
    (0x600, 0x605),
    (0x61c, 0x61c),
    (0x6dd, 0x6dd),
    (0x70f, 0x70f),
    (0x890, 0x891),
    (0x8e2, 0x8e2),
    (0x115f, 0x1160),
    (0x1680, 0x1680),
    (0x17b4, 0x17b5),
    (0x180b, 0x180f),
    (0x2000, 0x200f),
    (0x2028, 0x202f),
    (0x205f, 0x206f),
    (0x2800, 0x2800),
    (0x3000, 0x3000),
    (0x3164, 0x3164),
    (0xd800, 0xf8ff),
    (0xfdd0, 0xfdef),
    (0xfe00, 0xfe0f),
    (0xfeff, 0xfeff),
    (0xffa0, 0xffa0),
    (0xfff0, 0xffff),
    (0x1_10bd, 0x1_10bd),
    (0x1_10cd, 0x1_10cd),
    (0x1_3430, 0x1_343f),
    (0x1_bca0, 0x1_bca3),
    (0x1_d173, 0x1_d17a),
    (0xe_0000, 0xe_ffff),
    (0xf_0000, 0xf_ffff),
    (0x10_0000, 0x10_ffff),
];

/// How the format writes a character of a text.
fn shown(letter: char) -> String {
    let number = u32::from(letter);
    let hides = |range: &(u32, u32)| range.0 <= number && number <= range.1;
    if letter == '\\' || HIDDEN.iter().any(hides) {
        digits("\\x", letter.to_string().as_bytes())
    } else {
        letter.to_string()
    }
}

/// The text that a record shows for an entrant, and that it is accepted by the check.
fn shows_entrant(entrant: &[u8]) -> String {
    let list = [entrant, b"\n"].concat();
    let text = recorded("seed", Count::All, &list).unwrap();
    assert_eq!(check(text.as_bytes(), None, &list), Ok(()));
    let line = text.lines().nth(7).unwrap();
    let quoted = line.strip_prefix("1: \"").unwrap();
    quoted.strip_suffix('"').unwrap().to_string()
}

/// The text that a record shows for a seed, and that it is accepted by the check.
fn shows_seed(seed: &str) -> String {
    let text = recorded(seed, Count::All, b"a\nb\n").unwrap();
    assert_eq!(check(text.as_bytes(), None, b"a\nb\n"), Ok(()));
    let line = text.split('\n').nth(2).unwrap();
    let quoted = line.strip_prefix("seed: \"").unwrap();
    quoted.strip_suffix('"').unwrap().to_string()
}

#[test]
fn the_edges_of_each_range() {
    for (first, last) in HIDDEN {
        let beside = [first.wrapping_sub(1), first, last, last + 1];
        for letter in beside.into_iter().filter_map(char::from_u32) {
            let text = letter.to_string();
            assert_eq!(shows_seed(&text), shown(letter), "{letter:?}");
            for text in [text.clone(), format!("a{text}"), format!("{text}\u{301}")] {
                let wanted: String = text.chars().map(shown).collect();
                if letter != '\n' {
                    assert_eq!(shows_entrant(text.as_bytes()), wanted, "{letter:?}");
                }
                assert_eq!(shows_seed(&text), wanted, "{letter:?}");
            }
        }
    }
}

#[test]
fn all_characters() {
    let all: Vec<char> = ('\0'..=char::MAX).collect();
    for some in all.chunks(5000) {
        let seed: String = some.iter().collect();
        let wanted: String = some.iter().copied().map(shown).collect();
        assert!(shows_seed(&seed) == wanted, "{:?}", some[0]);
        let entrant = seed.replace('\n', "");
        assert!(shows_entrant(entrant.as_bytes()) == wanted.replace("\\x0a", ""));
    }
}

/// Quotation marks and spaces are written as they are, also at the ends.
#[test]
fn quotation_marks_backslashes_and_spaces() {
    for (text, wanted) in [
        ("\"", "\""),
        ("\"\"", "\"\""),
        ("\"a\"", "\"a\""),
        (" ", " "),
        ("  a  b  ", "  a  b  "),
        ("\\", "\\x5c"),
        ("\\\\", "\\x5c\\x5c"),
        ("\\x41", "\\x5cx41"),
        ("\\\"", "\\x5c\""),
        ("a\tb", "a\\x09b"),
        ("\u{e9}e\u{301}", "\u{e9}e\u{301}"),
        (
            "\u{1f468}\u{200d}\u{1f469}",
            "\u{1f468}\\xe2\\x80\\x8d\u{1f469}",
        ),
        ("\u{2764}\u{fe0f}", "\u{2764}\\xef\\xb8\\x8f"),
        ("a\u{a0}b", "a\\xc2\\xa0b"),
        ("\u{5d0}\u{202e}", "\u{5d0}\\xe2\\x80\\xae"),
        ("a\rb", "a\\x0db"),
    ] {
        assert_eq!(shows_entrant(text.as_bytes()), wanted);
        assert_eq!(shows_seed(text), wanted);
    }
}

/// How the format writes a byte that is not part of a text.
fn byte_shown(byte: u8) -> String {
    match byte {
        b'\\' | 0..=31 | 127.. => format!("\\x{byte:02x}"),
        _ => char::from(byte).to_string(),
    }
}

/// One byte that is no text makes all bytes of its entrant escapes, except those of ASCII that
/// show.
#[test]
fn bytes_that_are_no_text() {
    let bytes: Vec<u8> = (0..=255).filter(|byte| *byte != b'\n').collect();
    for byte in &bytes {
        for entrant in [
            vec![*byte, 0xff],
            vec![0xc3, *byte, 0xc3],
            [&[*byte][..], "\u{e9} \"\\\u{200d}".as_bytes(), &[0x80]].concat(),
        ] {
            let wanted: String = entrant.iter().copied().map(byte_shown).collect();
            assert_eq!(shows_entrant(&entrant), wanted, "{entrant:?}");
        }
    }
    let wanted: String = bytes.iter().copied().map(byte_shown).collect();
    assert_eq!(shows_entrant(&bytes), wanted);
    // Half a character, a surrogate, more bytes than are needed, and beyond the last character.
    for entrant in [
        &b"\xe2\x82"[..],
        b"\xed\xa0\x80",
        b"\xc0\x80",
        b"\xf4\x90\x80\x80",
        b"a\xe9",
    ] {
        let wanted: String = entrant.iter().copied().map(byte_shown).collect();
        assert_eq!(shows_entrant(entrant), wanted);
    }
}
