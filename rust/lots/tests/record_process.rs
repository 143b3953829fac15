//! The program as a process that writes and checks records.
#![cfg(target_os = "linux")]

#[path = "common/process.rs"]
mod process;
#[path = "common/records.rs"]
mod records;

use process::{by_each_name, shell};
use records::{announced, ANNOUNCEMENT, EXAMPLE, LIST, SEED};
use std::fs;
use std::path::PathBuf;

const USAGE: &str = "lots: usage: lots SEED COUNT|all < entrants\n";
const AGREES: &str = "the record agrees with the list; no announcement was compared\n";
const NAMES: &str = "the record agrees with the list, and names the announcement\n";

/// A folder of the test with this name, with the list, the record of the example, an announcement of
/// such a draw, and another text.
fn folder(name: &str) -> PathBuf {
    let folder = PathBuf::from(env!("CARGO_TARGET_TMPDIR")).join(name);
    let _ = fs::remove_dir_all(&folder);
    fs::create_dir_all(&folder).unwrap();
    for (file, text) in [
        ("list", LIST),
        ("record", EXAMPLE),
        ("announcement", &announced(2, 1, LIST.as_bytes()).unwrap()),
        ("noon", "noon\n"),
    ] {
        fs::write(folder.join(file), text).unwrap();
    }
    folder
}

/// Asserts the status of the commands and what they write to each stream. The folder is current.
fn ends(folder: &str, commands: &str, status: i32, out: &str, err: &str) {
    let commands = format!("cd {folder:?} && {commands}");
    let wanted = (status, out.into(), err.into());
    let found = shell(env!("CARGO_BIN_EXE_lots"), &commands);
    assert_eq!(found, wanted, "{commands}");
}

#[test]
fn records_and_checks() {
    let folder = folder("records_and_checks");
    let ends = |commands: &str, status, out: &str, err: &str| {
        ends(folder.to_str().unwrap(), commands, status, out, err);
    };
    ends(&format!("\"$0\" --record '{SEED}' 3 <list"), 0, EXAMPLE, "");
    ends("\"$0\" --check record <list", 0, AGREES, "");
    ends("\"$0\" --record x 3 announcement <list >full", 0, "", "");
    ends("\"$0\" --check full <list", 0, AGREES, "");
    ends("\"$0\" --check full announcement <list", 0, NAMES, "");
    let unannounced =
        "lots: the announcement does not fit this list and the number of entrants drawn\n";
    for command in [
        "--record x 2 announcement <list",
        "--record x all announcement <list",
        "--record x 3 noon <list",
        "--record x 3 announcement <noon",
    ] {
        ends(&format!("\"$0\" {command}"), 12, "", unannounced);
    }
    let sum = "$(sha256sum <noon | cut -c 1-64)";
    let named = format!("sed \"s/256: none/256: {sum}/\" record >named");
    ends(
        &format!("{named} && \"$0\" --check named noon <list"),
        12,
        "",
        unannounced,
    );
    ends("\"$0\" --check named <list", 0, AGREES, "");
    let other = "lots: the record names another announcement, or none\n";
    ends("\"$0\" --check full list <list", 10, "", other);
    ends("\"$0\" --check record announcement <list", 10, "", other);
    ends(
        "\"$0\" --check list <list",
        9,
        "",
        "lots: this is no record of format 2\n",
    );
    let other = "lots: the record is that of a draw from another list\n";
    for list in ["printf 'a\\nb\\nc\\n'", "printf ''"] {
        ends(&format!("{list} | \"$0\" --check record"), 11, "", other);
        ends(&format!("{list} | \"$0\" --check full list"), 11, "", other);
    }
    let differs = "lots: the record is not that of a draw from this list\n";
    let changed = "sed 's/Jun/Ada/' record >changed && \"$0\" --check changed <list";
    ends(changed, 11, "", differs);
    let few = "lots: 0 entrants, 3 asked for\n";
    ends("\"$0\" --record x 3 </dev/null", 3, "", few);
    let empty = "lots: line 1 is empty\n";
    ends("echo | \"$0\" --check record", 4, "", empty);
    ends("echo | \"$0\" --record x 3", 4, "", empty);
}

/// A command that announces a draw of these numbers of winners and reserves, with the texts of the example.
fn announce(winners: &str, reserves: &str) -> String {
    format!(
        "\"$0\" --announce 'Summer raffle of the school' '{winners}' '{reserves}' \
         '20 throws of a die, in the hall' \
         'the numbers thrown, in order, with one space between them' '{SEED}' \
         'Friday 4 December 2026, 12:00, Madrid'"
    )
}

#[test]
fn announces() {
    let folder = folder("announces");
    let ends = |commands: &str, status, out: &str, err: &str| {
        ends(folder.to_str().unwrap(), commands, status, out, err);
    };
    let command = announce("3", "1");
    ends(&format!("{command} <list"), 0, ANNOUNCEMENT, "");
    let zeros = announce("003", "01");
    ends(&format!("{zeros} <list"), 0, ANNOUNCEMENT, "");
    for (winners, reserves) in [
        ("0", "1"),
        ("all", "0"),
        ("1", "all"),
        ("+1", "0"),
        ("1", ""),
    ] {
        let bad = announce(winners, reserves);
        ends(&format!("{bad} <list"), 2, "", USAGE);
    }
    let few = "lots: 12 entrants, 13 asked for\n";
    ends(&format!("{} <list", announce("12", "1")), 3, "", few);
    if usize::BITS == 64 {
        let most = u64::MAX.to_string();
        let few = format!("lots: 12 entrants, {most} asked for\n");
        ends(&format!("{} <list", announce(&most, &most)), 3, "", &few);
    }
    ends(
        &format!("echo | {command}"),
        4,
        "",
        "lots: line 1 is empty\n",
    );
    for input in ["<&-", "<.", "0>/dev/null"] {
        ends(&format!("{command} {input}"), 6, "", "lots: read failed\n");
    }
    for out in [">&-", ">/dev/full", "1</dev/null"] {
        ends(
            &format!("{command} <list {out}"),
            7,
            "",
            "lots: write failed\n",
        );
        ends(&format!("{command} <list {out} 2>&-"), 7, "", "");
    }
}

#[test]
fn streams_and_files_that_fail() {
    let folder = folder("streams_and_files_that_fail");
    let ends = |commands: &str, status, out: &str, err: &str| {
        ends(folder.to_str().unwrap(), commands, status, out, err);
    };
    let (unread, unwritten) = ("lots: read failed\n", "lots: write failed\n");
    for command in [
        "--record x 3",
        "--check record",
        "--record x 3 announcement",
    ] {
        for input in ["<&-", "<.", "0>/dev/null"] {
            ends(&format!("\"$0\" {command} {input}"), 6, "", unread);
        }
        for out in [">&-", ">/dev/full", "1</dev/null"] {
            ends(&format!("\"$0\" {command} <list {out}"), 7, "", unwritten);
            ends(&format!("\"$0\" {command} <list {out} 2>&-"), 7, "", "");
        }
    }
    for file in ["missing", ".", "''", "record/record", "list/"] {
        for command in [
            format!("--check {file}"),
            format!("--check record {file}"),
            format!("--check {file} announcement"),
            format!("--record x 3 {file}"),
        ] {
            ends(&format!("\"$0\" {command} <list"), 6, "", unread);
        }
    }
    for command in ["--help", "--version"] {
        ends(&format!("\"$0\" {command} >/dev/full"), 7, "", unwritten);
        ends(&format!("\"$0\" {command} >&-"), 7, "", unwritten);
    }
}

#[test]
fn version_help_and_usage() {
    let program = env!("CARGO_BIN_EXE_lots");
    let version = concat!("lots ", env!("CARGO_PKG_VERSION"), "\n");
    let text = |text: &str| (0, text.to_string(), String::new());
    by_each_name(program, &["--version"], &text(version));
    by_each_name(program, &["--help"], &text(lots::program::HELP));
    for arguments in [
        "--announce",
        "--announce a 1 0 b c d",
        "--announce a 1 0 b c d e f",
        "--announce a 1 0 b c d ''",
        "--announce a 1 0 b c d \"$(printf '\\377')\"",
        "--record",
        "--record x",
        "--record x +1",
        "--record '' 1",
        "--record x 1 a b",
        "--check",
        "--check a b c",
        "--help x",
        "--version x",
        "--check \"$(printf '\\377')\"",
    ] {
        let found = shell(program, &format!("\"$0\" {arguments} </dev/null"));
        assert_eq!(found, (2, String::new(), USAGE.into()), "{arguments}");
    }
    for seed in ["--announce", "--record", "--check", "--help", "--version"] {
        let found = shell(program, &format!("echo a | \"$0\" {seed} all"));
        assert_eq!(found, text("a\n"), "{seed}");
    }
}
