//! What the arguments ask the program to do.

use lots::arguments::Count;
use lots::command::{read_command, Command};

/// The command of the arguments, as a text.
fn command(words: &[&str]) -> String {
    let arguments: Vec<String> = words.iter().map(|word| (*word).to_string()).collect();
    match read_command(&arguments) {
        Command::Draw => "draw".into(),
        Command::Announce { plan } => format!(
            "announce {:?} {} {} {:?} {:?} {:?} {:?}",
            plan.occasion,
            plan.winners,
            plan.reserves,
            plan.source,
            plan.form,
            plan.example,
            plan.time
        ),
        Command::Record {
            request,
            announcement,
        } => {
            let count = match request.count {
                Count::All => "all".into(),
                Count::Of(count) => count.to_string(),
            };
            format!("record {} {count} {announcement:?}", request.seed)
        }
        Command::Check {
            record,
            announcement,
        } => format!("check {record} {announcement:?}"),
        Command::Version => "version".into(),
        Command::Help => "help".into(),
    }
}

const NAMES: [&str; 5] = ["--announce", "--record", "--check", "--version", "--help"];

/// A seed and a count are a draw, whatever the seed is.
#[test]
fn seeds_that_look_like_options() {
    for name in NAMES {
        for count in ["all", "0", "3", "007", "18446744073709551615"] {
            assert_eq!(command(&[name, count]), "draw", "{name} {count}");
        }
    }
    for name in [
        "announce", "record", "check", "version", "help", "-h", "-V", "--", "--Record",
    ] {
        for values in [&[][..], &["3"], &["a"], &["a", "3"], &["a", "3", "b"]] {
            assert_eq!(command(&[&[name], values].concat()), "draw", "{name}");
        }
    }
}

const PLAN: [&str; 8] = [
    "--announce",
    "what",
    "3",
    "1",
    "where",
    "how",
    "4 1",
    "when",
];

#[test]
fn announcements() {
    let wanted = r#"announce "what" 3 1 "where" "how" "4 1" "when""#;
    assert_eq!(command(&PLAN), wanted);
    for (place, text, wanted) in [
        (2, "007", Some("announce \"what\" 7 1")),
        (2, "1", Some("announce \"what\" 1 1")),
        (
            2,
            "18446744073709551615",
            Some("announce \"what\" 18446744073709551615 1"),
        ),
        (3, "0", Some("announce \"what\" 3 0 \"where\"")),
        (
            3,
            "18446744073709551615",
            Some("announce \"what\" 3 18446744073709551615"),
        ),
        (1, "--help", Some("announce \"--help\" 3")),
        (1, " ", Some("announce \" \" 3")),
        (7, "all", Some("\"all\"")),
        (1, "", None),
        (4, "", None),
        (5, "", None),
        (6, "", None),
        (7, "", None),
        (2, "0", None),
        (2, "00", None),
        (2, "all", None),
        (3, "all", None),
    ] {
        let mut words = PLAN;
        words[place] = text;
        let found = command(&words);
        match wanted {
            Some(part) => assert!(found.contains(part), "{found}"),
            None => assert_eq!(found, "draw", "{words:?}"),
        }
    }
    for place in [2, 3] {
        for text in [
            "",
            "+1",
            "-1",
            "1.5",
            " 1",
            "1 ",
            "x",
            "0x1",
            "18446744073709551616",
        ] {
            let mut words = PLAN;
            words[place] = text;
            assert_eq!(command(&words), "draw", "{words:?}");
        }
    }
    for most in 0..PLAN.len() {
        assert_eq!(command(&PLAN[..most]), "draw", "{most}");
    }
    assert_eq!(command(&[&PLAN[..], &["x"]].concat()), "draw");
    assert_eq!(command(&PLAN[1..]), "draw");
}

#[test]
fn records() {
    for (words, wanted) in [
        (&["--record", "seed", "3"][..], "record seed 3 None"),
        (&["--record", "seed", "all"], "record seed all None"),
        (
            &["--record", "seed", "all", "all"],
            "record seed all Some(\"all\")",
        ),
        (&["--record", "seed", "03", ""], "record seed 3 Some(\"\")"),
        (&["--record", "--check", "3"], "record --check 3 None"),
        (
            &["--record", "--record", "3", "--record"],
            "record --record 3 Some(\"--record\")",
        ),
        (&["--record"], "draw"),
        (&["--record", "seed"], "draw"),
        (&["--record", "", "3"], "draw"),
        (&["--record", "", "3", "a"], "draw"),
        (&["--record", "seed", "+3"], "draw"),
        (&["--record", "seed", "x", "a"], "draw"),
        (&["--record", "seed", "3", "a", "b"], "draw"),
        (&["seed", "3", "--record"], "draw"),
    ] {
        assert_eq!(command(words), wanted, "{words:?}");
    }
}

#[test]
fn checks() {
    for (words, wanted) in [
        (&["--check", "record"][..], "check record None"),
        (&["--check", ""], "check  None"),
        (&["--check", "+3"], "check +3 None"),
        (&["--check", "./3"], "check ./3 None"),
        (&["--check", "3", "all"], "check 3 Some(\"all\")"),
        (&["--check", "a", "--help"], "check a Some(\"--help\")"),
        (&["--check"], "draw"),
        (&["--check", "3"], "draw"),
        (&["--check", "all"], "draw"),
        (&["--check", "a", "b", "c"], "draw"),
        (&["a", "--check"], "draw"),
    ] {
        assert_eq!(command(words), wanted, "{words:?}");
    }
}

#[test]
fn version_and_help() {
    assert_eq!(command(&["--version"]), "version");
    assert_eq!(command(&["--help"]), "help");
    for name in ["--version", "--help"] {
        for values in [&[""][..], &["a"], &["a", "b"], &["--help"], &["--version"]] {
            assert_eq!(
                command(&[&[name], values].concat()),
                "draw",
                "{name} {values:?}"
            );
        }
    }
    assert_eq!(command(&[]), "draw");
    assert_eq!(command(&[""]), "draw");
}

/// Commands, plans and requests are compared by what they ask for, and show it.
#[test]
fn compared_and_shown() {
    let words = ["--record", "a seed", "2", "a path"].map(String::from);
    let record = read_command(&words);
    assert_eq!(record.clone(), record);
    let text = "Record { request: Request { seed: \"a seed\", count: Of(2) }, \
                announcement: Some(\"a path\") }";
    assert_eq!(format!("{record:?}"), text);

    let words = [
        "--announce",
        "a jury",
        "2",
        "1",
        "dice",
        "digits",
        "42",
        "noon",
    ]
    .map(String::from);
    let announce = read_command(&words);
    assert_eq!(announce.clone(), announce);
    assert_ne!(announce, record);
    let text = "Announce { plan: Plan { occasion: \"a jury\", winners: 2, reserves: 1, \
                source: \"dice\", form: \"digits\", example: \"42\", time: \"noon\" } }";
    assert_eq!(format!("{announce:?}"), text);
}
