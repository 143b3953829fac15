//! The text of an announcement, and which texts are one.

#[path = "common/records.rs"]
mod records;

use lots::announcement::{announcement, is_announcement, Plan};
use lots::arguments::{Count, Request};
use lots::check::{check, is_announced};
use lots::program::write_record;
use lots::record::{record, Source};
use lots::{sha256, CheckError, LotsError};
use records::{announced, ANNOUNCEMENT, LIST, PLAN, SEED};

/// The number of winners and reserves in the announcement of the example.
const DRAWN: usize = 4;

/// Whether the text is the announcement of a draw of `count` entrants from the list of the example.
fn is_for(text: &[u8], count: usize) -> bool {
    is_announcement(text, LIST.as_bytes(), 12, count).unwrap()
}

/// A change of a plan: one of its texts becomes another one.
type Change = for<'a> fn(&mut Plan<'a>, &'a str);

const CHANGES: [Change; 5] = [
    |plan, text| plan.occasion = text,
    |plan, text| plan.source = text,
    |plan, text| plan.form = text,
    |plan, text| plan.example = text,
    |plan, text| plan.time = text,
];

/// The places of the quoted values of the example, without their quotation marks.
fn quoted_values() -> Vec<std::ops::Range<usize>> {
    let texts = [
        PLAN.occasion,
        PLAN.source,
        PLAN.form,
        PLAN.example,
        PLAN.time,
    ];
    let begins = texts.map(|text| ANNOUNCEMENT.find(&format!("\"{text}\"\n")).unwrap() + 1);
    let ranges = begins.iter().zip(texts);
    ranges
        .map(|(begin, text)| *begin..begin + text.len())
        .collect()
}

#[test]
fn the_example() {
    let text = announcement(&PLAN, LIST.as_bytes());
    assert_eq!(text.as_deref(), Ok(ANNOUNCEMENT));
    assert!(is_for(ANNOUNCEMENT.as_bytes(), DRAWN));
}

/// Each text stands in its own line, and is shown as a seed of a record is.
#[test]
fn odd_texts() {
    for (text, shown) in [
        ("a", "a"),
        (" ", " "),
        ("\"", "\""),
        ("\" \"", "\" \""),
        ("\\", "\\x5c"),
        ("\\x41", "\\x5cx41"),
        ("\n", "\\x0a"),
        (
            "a\nend of the announcement\n",
            "a\\x0aend of the announcement\\x0a",
        ),
        ("\t\0\r", "\\x09\\x00\\x0d"),
        ("a\u{a0}b", "a\\xc2\\xa0b"),
        ("\u{200d}", "\\xe2\\x80\\x8d"),
        ("\u{5d0}\u{202e}", "\u{5d0}\\xe2\\x80\\xae"),
        ("\u{e9}e\u{301}\u{1f468}", "\u{e9}e\u{301}\u{1f468}"),
    ] {
        for (change, value) in CHANGES.iter().zip(quoted_values()) {
            let mut plan = PLAN;
            change(&mut plan, text);
            let made = announcement(&plan, LIST.as_bytes()).unwrap();
            let mut wanted = ANNOUNCEMENT.to_string();
            wanted.replace_range(value, shown);
            assert_eq!(made, wanted, "{text:?}");
            assert!(is_for(made.as_bytes(), DRAWN), "{text:?}");
        }
    }
    let long = "x".repeat(100_000);
    for change in CHANGES {
        let mut plan = PLAN;
        change(&mut plan, &long);
        let made = announcement(&plan, LIST.as_bytes()).unwrap();
        assert!(is_for(made.as_bytes(), DRAWN));
    }
}

#[test]
fn each_text_empty() {
    for change in CHANGES {
        let mut plan = PLAN;
        change(&mut plan, "");
        let made = announcement(&plan, LIST.as_bytes()).unwrap();
        assert!(!is_for(made.as_bytes(), DRAWN), "{made}");
    }
}

#[test]
fn numbers_of_winners_and_reserves() {
    for (list, entrants) in [(LIST, 12), ("a", 1), ("a\nb", 2), ("", 0)] {
        for winners in 0..=14 {
            for reserves in 0..=14 {
                let made = announced(winners, reserves, list.as_bytes());
                let count = winners + reserves;
                if count > entrants {
                    assert_eq!(made, Err(LotsError::TooFew { entrants, count }));
                    continue;
                }
                let text = made.unwrap();
                let lines =
                    format!("\nentrants: {entrants}\nwinners: {winners}\nreserves: {reserves}\n");
                assert!(text.contains(&lines), "{text}");
                for other in (0..=14).chain([usize::MAX]) {
                    let is = is_announcement(text.as_bytes(), list.as_bytes(), entrants, other);
                    assert_eq!(is, Ok(winners > 0 && other == count), "{text}");
                }
            }
        }
    }
}

/// There are too few entrants for a sum that does not fit into a number, too.
#[test]
fn sums_that_overflow() {
    let (entrants, most) = (12, usize::MAX);
    for (winners, reserves, count) in [
        (most, 0, most),
        (0, most, most),
        (most - 1, 1, most),
        (most, 1, most),
        (1, most, most),
        (12, most, most),
        (most, most, most),
        (most - 10, 15, most),
        (13, 0, 13),
        (12, 1, 13),
        (0, 13, 13),
    ] {
        let made = announced(winners, reserves, LIST.as_bytes());
        assert_eq!(made, Err(LotsError::TooFew { entrants, count }));
    }
    // The sum of these numbers, without what overflows, is the number that is drawn.
    let lines = "winners: 3\nreserves: 1\n";
    for (winners, reserves) in [
        ("18446744073709551615", "5"),
        ("5", "18446744073709551615"),
        ("18446744073709551616", "4"),
        ("18446744073709551620", "0"),
        ("4", "18446744073709551616"),
        ("4294967295", "4294967301"),
    ] {
        let other = format!("winners: {winners}\nreserves: {reserves}\n");
        let text = ANNOUNCEMENT.replace(lines, &other);
        for count in [0, DRAWN, usize::MAX] {
            assert!(!is_for(text.as_bytes(), count), "{text}");
        }
    }
}

#[test]
fn lists_with_an_empty_line() {
    for (list, line) in [("\n", 1), ("a\n\nb\n", 2), ("a\nb\n\n", 3), ("\n\n", 1)] {
        let empty = Err(LotsError::EmptyLine(line));
        assert_eq!(announced(1, 0, list.as_bytes()), empty);
        assert_eq!(announced(9, usize::MAX, list.as_bytes()), empty);
    }
}

/// The announcement of one list is none of another, even if its number of entrants is given.
#[test]
fn other_lists() {
    for list in [
        LIST.trim_end().to_string(),
        LIST.replace('\n', "\r\n"),
        LIST.replace("Lise", "lise"),
        LIST.replace("Ada\nBarbara\n", "Barbara\nAda\n"),
        format!("\u{feff}{LIST}"),
        format!("{LIST}Mia\n"),
        LIST.replace("Lise\n", ""),
        String::new(),
    ] {
        let (text, list) = (ANNOUNCEMENT.as_bytes(), list.as_bytes());
        let entrants = lots::count_entrants(list).unwrap();
        for given in [entrants, 12] {
            assert_eq!(is_announcement(text, list, given, DRAWN), Ok(false));
            assert_eq!(is_announced(Some(text), list, given, DRAWN), Ok(false));
            assert_eq!(is_announced(None, list, given, DRAWN), Ok(true));
        }
        // Nor if the announcement names its sum, but not its entrants.
        let sum = records::digits("", &sha256::digest(list));
        let other =
            ANNOUNCEMENT.replace(&records::digits("", &sha256::digest(LIST.as_bytes())), &sum);
        let is = is_announcement(other.as_bytes(), list, entrants, DRAWN);
        assert_eq!(is, Ok(entrants == 12), "{entrants}");
    }
}

/// What a byte may become in a quoted value: any byte of ASCII that shows, except a backslash.
fn may_stand_in_a_value(byte: u8) -> bool {
    (b' '..=b'~').contains(&byte) && byte != b'\\'
}

/// A changed byte makes it no announcement, except in a quoted value: there it may be that of another
/// plan. In no case is it the one that the record names: some of the changes are compared with it.
#[test]
fn each_changed_byte() {
    let (text, values) = (ANNOUNCEMENT.as_bytes(), quoted_values());
    let made = Source {
        seed: SEED,
        count: Count::Of(DRAWN),
        announcement: Some(sha256::digest(text)),
        program: None,
    };
    let named = record(&made, LIST.as_bytes()).unwrap();
    assert_eq!(check(named.as_bytes(), Some(text), LIST.as_bytes()), Ok(()));
    let other = Err(CheckError::OtherAnnouncement);
    for place in 0..text.len() {
        let is_in_a_value = values.iter().any(|value| value.contains(&place));
        for byte in (0..=255).filter(|byte| *byte != text[place]) {
            let mut changed = text.to_vec();
            changed[place] = byte;
            let wanted = is_in_a_value && may_stand_in_a_value(byte);
            assert_eq!(is_for(&changed, DRAWN), wanted, "{byte} at {place}");
            if usize::from(byte) % 8 == place % 8 {
                let found = check(named.as_bytes(), Some(&changed), LIST.as_bytes());
                assert_eq!(found, other, "{byte} at {place}");
            }
        }
    }
}

/// The digits of the numbers, for any number drawn.
#[test]
fn each_changed_digit_of_the_numbers() {
    let at = |name: &str| ANNOUNCEMENT.find(name).unwrap() + name.len();
    for winners in 0..10 {
        for reserves in 0..10 {
            let mut text = ANNOUNCEMENT.as_bytes().to_vec();
            text[at("\nwinners: ")] = b'0' + winners;
            text[at("\nreserves: ")] = b'0' + reserves;
            for count in 0..20 {
                let wanted = winners > 0 && usize::from(winners + reserves) == count;
                assert_eq!(is_for(&text, count), wanted, "{winners} {reserves}");
            }
        }
    }
}

#[test]
fn each_byte_that_is_removed_or_inserted() {
    let (text, values) = (ANNOUNCEMENT.as_bytes(), quoted_values());
    for place in 0..=text.len() {
        let (before, after) = text.split_at(place);
        for byte in [0, 9, 10, 13, 0x7f, 0x80, 0xc3, 0xff]
            .into_iter()
            .chain(b' '..=b'~')
        {
            // Another quotation mark beside the one at an end of a value is part of the value, too.
            let room = usize::from(byte == b'"');
            let is_in_a_value = values
                .iter()
                .any(|value| (value.start - room..=value.end + room).contains(&place));
            let wanted = is_in_a_value && may_stand_in_a_value(byte);
            let changed = [before, &[byte], after].concat();
            assert_eq!(is_for(&changed, DRAWN), wanted, "{byte} at {place}");
        }
        if !after.is_empty() {
            let wanted = values.iter().any(|value| value.contains(&place));
            let changed = [before, &after[1..]].concat();
            assert_eq!(is_for(&changed, DRAWN), wanted, "{place}");
            assert!(!is_for(before, DRAWN), "{place}");
            assert_eq!(is_for(after, DRAWN), place == 0, "{place}");
        }
    }
}

#[test]
fn lines_that_are_exchanged_repeated_or_missing() {
    let lines: Vec<&str> = ANNOUNCEMENT.split_inclusive('\n').collect();
    for first in 0..lines.len() {
        for second in 0..lines.len() {
            let mut exchanged = lines.clone();
            exchanged.swap(first, second);
            let is_same = first == second;
            assert_eq!(is_for(exchanged.concat().as_bytes(), DRAWN), is_same);
            let mut repeated = lines.clone();
            repeated.insert(first, lines[second]);
            assert!(!is_for(repeated.concat().as_bytes(), DRAWN));
        }
        let mut fewer = lines.clone();
        fewer.remove(first);
        assert!(!is_for(fewer.concat().as_bytes(), DRAWN), "{first}");
    }
}

/// What means the same but is written in another way, and what cannot be read.
#[test]
fn other_spellings() {
    for (old, new) in [
        ("announcement 1", "announcement 2"),
        ("announcement 1", "announcement 01"),
        ("announcement 1", "announcement 1 "),
        ("announcement 1", "announcement "),
        ("announcement 1", "Announcement 1"),
        ("nanorand announcement 1", "nanorand public draw 2"),
        ("winners: 3", "winners: 03"),
        ("winners: 3", "winners: +3"),
        ("winners: 3", "winners: -3"),
        ("winners: 3", "winners: 3 "),
        ("winners: 3", "winners: "),
        ("winners: 3", "winners:  3"),
        ("winners: 3", "winners: all"),
        ("reserves: 1", "reserves: 01"),
        ("reserves: 1", "reserves: +1"),
        ("reserves: 1", "reserves: "),
        ("winners: 3\nreserves: 1", "winners: 4"),
        ("winners: 3\nreserves: 1", "winners: 4\nreserves: "),
        ("winners: 3\nreserves: 1", "winners: 4\nreserves: -0"),
        ("entrants: 12", "entrants: 012"),
        ("entrants: 12", "entrants: +12"),
        ("entrants: 12", "entrants: 13"),
        ("entrants: 12", "entrants: x"),
        ("SHA-256: 32230fec", "SHA-256: 32230FEC"),
        ("SHA-256: 32230fec", "SHA-256: "),
        ("occasion: \"S", "occasion: \"\\x53"),
        ("occasion: \"S", "occasion: 'S"),
        ("occasion: \"S", "occasion: S"),
        ("occasion: \"S", "occasion:\"S"),
        ("occasion: \"S", "occasion: \"\\"),
        ("occasion: \"S", "occasion: \"\\x"),
        ("occasion: \"S", "occasion: \"\\x5C"),
        ("occasion: \"S", "occasion: \"\\x5g"),
        ("occasion: \"S", "occasion: \"\\xff"),
        ("occasion: \"S", "occasion: \"\\xc3"),
        ("occasion: \"S", "occasion: \"\\\\"),
        ("occasion: \"S", "occasion: \"\t"),
        ("occasion: \"S", "occasion: \"\u{a0}"),
        ("Madrid\"", "Madrid"),
        ("Madrid\"", "Madrid\" "),
        ("time: ", "Time: "),
        ("\"Friday 4 December 2026, 12:00, Madrid\"", "\"\""),
        ("\"Friday 4 December 2026, 12:00, Madrid\"", "\""),
        ("\"Friday 4 December 2026, 12:00, Madrid\"", ""),
        ("end of the announcement\n", "end of the announcement"),
        ("end of the announcement\n", "end of the announcement\n\n"),
        ("end of the announcement\n", "end of the record\n"),
        ("end of the announcement\n", ""),
    ] {
        let text = ANNOUNCEMENT.replacen(old, new, 1);
        assert_ne!(text, ANNOUNCEMENT, "{new}");
        assert!(!is_for(text.as_bytes(), DRAWN), "{text}");
    }
    for text in [
        ANNOUNCEMENT.replace('\n', "\r\n"),
        ANNOUNCEMENT.repeat(2),
        format!("\u{feff}{ANNOUNCEMENT}"),
        format!(" {ANNOUNCEMENT}"),
        format!("{ANNOUNCEMENT}\0"),
        "On Friday at noon.\n".into(),
        String::new(),
    ] {
        assert!(!is_for(text.as_bytes(), DRAWN), "{text}");
    }
    // A text that is not UTF-8 cannot be read, in whatever way its bytes are written.
    for bytes in [&b"\xff"[..], b"\\xff", b"\xc3", b"\\xed\\xa0\\x80"] {
        let (before, after) = ANNOUNCEMENT.split_at(quoted_values()[0].start);
        let text = [before.as_bytes(), bytes, after.as_bytes()].concat();
        assert!(!is_for(&text, DRAWN), "{bytes:?}");
    }
}

/// A record is written only with the announcement of its draw.
#[test]
fn records_of_announced_draws() {
    let other = Err(CheckError::NotAnnounced);
    for (count, number) in [
        (Count::Of(4), 4),
        (Count::Of(3), 3),
        (Count::Of(0), 0),
        (Count::All, 12),
    ] {
        for text in [
            ANNOUNCEMENT.to_string(),
            announced(1, 2, LIST.as_bytes()).unwrap(),
            announced(0, 3, LIST.as_bytes()).unwrap(),
            announced(12, 0, LIST.as_bytes()).unwrap(),
            announced(4, 0, b"a\nb\nc\nd\n").unwrap(),
            "On Friday at noon.\n".to_string(),
            String::new(),
        ] {
            let (seed, mut out) = (SEED, Vec::new());
            let request = Request { seed, count };
            let given = Some(text.as_bytes());
            let written = write_record(&request, given, &mut LIST.as_bytes(), &mut out);
            let wanted = is_for(text.as_bytes(), number);
            assert_eq!(written, if wanted { Ok(()) } else { other }, "{text}");
            assert_eq!(out.is_empty(), !wanted);
            // The check of a record that names it says the same.
            let made = Source {
                seed,
                count,
                announcement: Some(sha256::digest(text.as_bytes())),
                program: None,
            };
            let named = record(&made, LIST.as_bytes()).unwrap();
            assert_eq!(check(named.as_bytes(), given, LIST.as_bytes()), written);
            assert_eq!(check(named.as_bytes(), None, LIST.as_bytes()), Ok(()));
        }
    }
}

/// Which error is returned if there are several: first that of the list, then that of the announcement.
#[test]
fn several_errors() {
    let request = |count| Request { seed: SEED, count };
    let written = |count, list: &str| {
        let given = Some(ANNOUNCEMENT.as_bytes());
        write_record(
            &request(count),
            given,
            &mut list.as_bytes(),
            &mut Vec::new(),
        )
    };
    let empty = Err(CheckError::Draw(LotsError::EmptyLine(2)));
    assert_eq!(written(Count::Of(4), "a\n\n"), empty);
    assert_eq!(written(Count::Of(13), LIST), Err(CheckError::NotAnnounced));
    assert_eq!(
        written(Count::Of(usize::MAX), LIST),
        Err(CheckError::NotAnnounced)
    );
    assert_eq!(written(Count::Of(4), "a\n"), Err(CheckError::NotAnnounced));
    // An announcement of more than there are.
    let (entrants, count) = (12, 13);
    let text = ANNOUNCEMENT.replace("winners: 3", "winners: 12");
    let given = Some(text.as_bytes());
    let found = write_record(
        &request(Count::Of(13)),
        given,
        &mut LIST.as_bytes(),
        &mut Vec::new(),
    );
    assert_eq!(found, Err(LotsError::TooFew { entrants, count }.into()));
}
