//! The check of a record accepts exactly what `record` writes.

#[path = "common/records.rs"]
mod records;

use lots::arguments::Count;
use lots::check::check;
use lots::record::{record, Source};
use lots::{sha256, CheckError, LotsError};
use records::{announced, recorded, EXAMPLE, LIST, SEED};

/// The announcement of a draw of all entrants.
fn announcement() -> Vec<u8> {
    announced(10, 2, LIST.as_bytes()).unwrap().into_bytes()
}

/// A record of a draw of all entrants, so that each other seed draws another order.
fn long_record() -> String {
    recorded(SEED, Count::All, LIST.as_bytes()).unwrap()
}

/// The same with an announcement and a module.
fn full_record() -> String {
    let made = Source {
        seed: SEED,
        count: Count::All,
        announcement: Some(sha256::digest(&announcement())),
        program: Some(sha256::digest(b"module")),
    };
    record(&made, LIST.as_bytes()).unwrap()
}

fn agrees(text: &[u8]) -> bool {
    check(text, None, LIST.as_bytes()).is_ok()
}

#[test]
fn what_record_writes() {
    assert!(agrees(EXAMPLE.as_bytes()) && agrees(long_record().as_bytes()));
    for count in 0..=12 {
        let text = recorded("\t\"\\ ", Count::Of(count), LIST.as_bytes()).unwrap();
        assert!(agrees(text.as_bytes()), "{count}");
    }
    for size in [999, 1000, 1001, 2000] {
        let list = "x\n".repeat(size);
        let text = recorded(SEED, Count::All, list.as_bytes()).unwrap();
        assert_eq!(check(text.as_bytes(), None, list.as_bytes()), Ok(()));
    }
    for list in ["", "a", "a\n"] {
        let text = recorded(SEED, Count::All, list.as_bytes()).unwrap();
        assert_eq!(check(text.as_bytes(), None, list.as_bytes()), Ok(()));
    }
}

/// If an announcement is given, the record has to name it. Otherwise it may name any.
#[test]
fn announcements() {
    let (full, list, named) = (full_record(), LIST.as_bytes(), announcement());
    let other = Err(CheckError::OtherAnnouncement);
    assert_eq!(check(full.as_bytes(), None, list), Ok(()));
    assert_eq!(check(full.as_bytes(), Some(&named), list), Ok(()));
    for announcement in [
        &b""[..],
        b"none",
        &named[1..],
        &named[..named.len() - 1],
        &[&*named, b"\n"].concat(),
        announced(11, 1, list).unwrap().as_bytes(),
        LIST.as_bytes(),
    ] {
        assert_eq!(check(full.as_bytes(), Some(announcement), list), other);
        assert_eq!(check(EXAMPLE.as_bytes(), Some(announcement), list), other);
    }
}

#[test]
fn other_lists() {
    let other = Err(CheckError::OtherList);
    let mut lists = vec![
        LIST.trim_end().to_string(),
        LIST.replace('\n', "\r\n"),
        LIST.replace("Lise", "lise"),
        LIST.replace("Lise", "Lise "),
        format!("{LIST}Mia\n"),
        format!("\u{feff}{LIST}"),
        LIST.replace("Ada\nBarbara\n", "Barbara\nAda\n"),
    ];
    for list in lists.drain(..) {
        assert_eq!(check(EXAMPLE.as_bytes(), None, list.as_bytes()), other);
    }
    // The list is compared first, also before the announcement.
    assert_eq!(check(EXAMPLE.as_bytes(), Some(b"none"), b"a\nb\n"), other);
    let (entrants, count) = (12, 13);
    let few = Err(LotsError::TooFew { entrants, count }.into());
    let text = EXAMPLE.replace("drawn: 3", "drawn: 13");
    assert_eq!(check(text.as_bytes(), None, LIST.as_bytes()), few);
    // An empty line is an error, whatever the text is.
    let empty = Err(CheckError::Draw(LotsError::EmptyLine(3)));
    for text in [EXAMPLE, "", "no record"] {
        assert_eq!(check(text.as_bytes(), None, b"a\nb\n\n"), empty);
    }
}

/// The values that may replace a byte.
fn others(byte: u8) -> Vec<u8> {
    let near = [
        byte ^ 1,
        byte ^ 0x20,
        byte ^ 0x80,
        byte.wrapping_add(1),
        byte.wrapping_sub(1),
    ];
    let mut others = b"\0\t\n\r \"\\+-0123456789abcdefxAF\x7f\x80\xc3\xff".to_vec();
    others.extend(near);
    others.retain(|other| *other != byte);
    others.sort_unstable();
    others.dedup();
    others
}

#[test]
fn each_changed_byte() {
    let text = long_record().into_bytes();
    for place in 0..text.len() {
        for byte in others(text[place]) {
            let mut changed = text.clone();
            changed[place] = byte;
            assert!(!agrees(&changed), "{byte} at {place}");
        }
    }
}

/// In a record with an announcement and a module, too. Nothing shows which module made a draw, so
/// other digits of its sum are accepted, if they are lower-case.
#[test]
fn each_changed_byte_of_a_full_record() {
    let text = full_record().into_bytes();
    let name = b"module SHA-256: ";
    let found = text.windows(name.len()).position(|part| part == name);
    let module = found.unwrap() + name.len();
    let named = announcement();
    for place in 0..text.len() {
        for byte in others(text[place]) {
            let mut changed = text.clone();
            changed[place] = byte;
            let wanted =
                (module..module + 64).contains(&place) && b"0123456789abcdef".contains(&byte);
            let found = check(&changed, Some(&named), LIST.as_bytes());
            assert_eq!(found.is_ok(), wanted, "{byte} at {place}");
        }
    }
}

#[test]
fn each_byte_that_is_removed_or_inserted() {
    let text = long_record().into_bytes();
    for place in 0..=text.len() {
        let (before, after) = text.split_at(place);
        for byte in others(1) {
            assert!(!agrees(&[before, &[byte], after].concat()), "{place}");
        }
        if !after.is_empty() {
            assert!(!agrees(&[before, &after[1..]].concat()), "{place}");
        }
    }
}

#[test]
fn each_cut() {
    let text = long_record().into_bytes();
    for place in 0..text.len() {
        assert!(!agrees(&text[..place]), "{place}");
        assert!(place == 0 || !agrees(&text[place..]), "{place}");
    }
}

#[test]
fn lines_that_are_exchanged_repeated_or_missing() {
    for text in [long_record(), full_record()] {
        let lines: Vec<&str> = text.split_inclusive('\n').collect();
        for first in 0..lines.len() {
            for second in 0..lines.len() {
                let mut exchanged = lines.clone();
                exchanged.swap(first, second);
                let (is_same, changed) = (first == second, exchanged.concat());
                assert_eq!(agrees(changed.as_bytes()), is_same, "{first} {second}");
                let mut repeated = lines.clone();
                repeated.insert(first, lines[second]);
                assert!(!agrees(repeated.concat().as_bytes()), "{first} {second}");
            }
            let mut fewer = lines.clone();
            let gone = fewer.remove(first);
            let is_module = gone.starts_with("module");
            assert_eq!(agrees(fewer.concat().as_bytes()), is_module, "{first}");
        }
    }
}

#[test]
fn line_ends_and_what_stands_around() {
    let text = long_record();
    for changed in [
        text.replace('\n', "\r\n"),
        text.replace('\n', "\r"),
        text.trim_end().to_string(),
        format!("{text}\n"),
        format!("\n{text}"),
        format!(" {text}"),
        format!("{text} "),
        format!("\u{feff}{text}"),
        format!("{text}\0"),
        text.repeat(2),
        String::new(),
    ] {
        assert!(!agrees(changed.as_bytes()), "{changed:?}");
    }
    for (end, _) in text.match_indices('\n') {
        assert!(!agrees(
            format!("{}\r{}", &text[..end], &text[end..]).as_bytes()
        ));
    }
}

/// What means the same but is written in another way.
#[test]
fn other_spellings() {
    let differs = Err(CheckError::Differs);
    for (old, new) in [
        ("drawn: 3", "drawn: 03"),
        ("entrants: 12", "entrants: 012"),
        ("entrants: 12", "entrants: x"),
        ("list SHA-256: 32230fec", "list SHA-256: 32230FEC"),
        ("seed: \"4 1", "seed: \"4\\x201"),
        ("seed: \"4 1", "seed: \"\\x34 1"),
        ("seed: \"4 1", "seed: '4 1"),
        ("1: \"Katherine\"", "1: \"\\x4batherine\""),
        ("end of the record\n", "end of the record \n"),
        ("drawn: 3\n", "drawn: 3\nmodule SHA-256: \n"),
    ] {
        let text = EXAMPLE.replace(old, new);
        assert_eq!(
            check(text.as_bytes(), None, LIST.as_bytes()),
            differs,
            "{new}"
        );
    }
    let full = full_record();
    for name in ["announcement SHA-256: ", "module SHA-256: "] {
        let (before, after) = full.split_at(full.find(name).unwrap() + name.len());
        let (sum, rest) = after.split_at(64);
        let text = format!("{before}{}{rest}", sum.to_uppercase());
        assert_ne!(text, full);
        assert_eq!(check(text.as_bytes(), None, LIST.as_bytes()), differs);
    }
}

/// What cannot be read.
#[test]
fn unreadable_texts() {
    let unreadable = Err(CheckError::Unreadable);
    for (old, new) in [
        ("drawn: 3", "drawn: +3"),
        ("draw 2", "draw "),
        ("draw 2", "draw 1"),
        ("draw 2", "draw 2 "),
        ("draw 2", "draw 20"),
        ("4 5\"\n", "4 5\\\"\n"),
        ("nanorand", "Nanorand"),
        ("none", "None"),
        ("none", ""),
        ("none", "0"),
        ("none", &"0".repeat(63)),
        ("none", &"0".repeat(65)),
        ("none", &"g".repeat(64)),
        ("none", &"0g".repeat(32)),
        ("\"4 1 6 3 3 2 5 6 1 4 2 6 5 3 1 1 6 2 4 5\"", "\"\""),
        ("\"4 1 6 3 3 2 5 6 1 4 2 6 5 3 1 1 6 2 4 5\"", "\""),
        ("\"4 1 6 3 3 2 5 6 1 4 2 6 5 3 1 1 6 2 4 5\"", ""),
        ("\"4 1", "\"\\x"),
        ("\"4 1", "\"\\"),
        ("\"4 1", "\"\\x0g"),
        ("\"4 1", "\"\\xg0"),
        ("\"4 1", "\"\\y00"),
        ("\"4 1", "\"\\xff"),
        ("\"4 1", "\"\\xc3"),
        ("drawn: 3", "drawn: "),
        ("drawn: 3", "drawn: -3"),
        ("drawn: 3", "drawn: all"),
        ("drawn: 3", "drawn: 3 "),
        ("drawn: 3", "drawn: 99999999999999999999"),
        ("drawn: 3", "Drawn: 3"),
        ("drawn: 3\n", "drawn: 3\nmodule SHA-256: none\n"),
        ("entrants: 12\n", ""),
    ] {
        let text = EXAMPLE.replacen(old, new, 1);
        if new != "draw 1" && new != "draw " {
            assert_eq!(
                check(text.as_bytes(), None, LIST.as_bytes()),
                unreadable,
                "{new}"
            );
        }
        assert!(!agrees(text.as_bytes()), "{new}");
    }
    let text = [b"\"4 1".as_slice(), b"\xff"].concat();
    assert_eq!(check(&text, None, LIST.as_bytes()), unreadable);
}

#[test]
fn texts_and_statuses_of_the_errors() {
    for (error, text, status) in [
        (CheckError::Unreadable, "this is no record of format 2", 9),
        (
            CheckError::OtherAnnouncement,
            "the record names another announcement, or none",
            10,
        ),
        (
            CheckError::OtherList,
            "the record is that of a draw from another list",
            11,
        ),
        (
            CheckError::Differs,
            "the record is not that of a draw from this list",
            11,
        ),
        (
            CheckError::NotAnnounced,
            "the announcement does not fit this list and the number of entrants drawn",
            12,
        ),
        (
            CheckError::Draw(LotsError::EmptyLine(7)),
            "line 7 is empty",
            4,
        ),
        (CheckError::Draw(LotsError::Memory), "no memory", 5),
        (CheckError::Draw(LotsError::Read), "read failed", 6),
        (CheckError::Draw(LotsError::Write), "write failed", 7),
    ] {
        assert_eq!((error.to_string().as_str(), error.status()), (text, status));
        let boxed: Box<dyn std::error::Error> = error.into();
        assert_eq!(boxed.to_string(), text);
    }
}
