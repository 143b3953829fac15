//! The program as a process: its arguments, its streams and its exit status.
#![cfg(target_os = "linux")]

#[path = "common/process.rs"]
mod process;

use process::{by_each_name, shell};
use std::io::Write;
use std::os::unix::io::OwnedFd;
use std::os::unix::net::UnixStream;
use std::process::Command;

/// Asserts the status of the commands and what they write to each stream.
fn ends(commands: &str, status: i32, out: &str, err: &str) {
    let program = env!("CARGO_BIN_EXE_lots");
    let wanted = (status, out.into(), err.into());
    assert_eq!(shell(program, commands), wanted, "{commands}");
}

#[test]
fn a_draw() {
    ends("printf 'a\\nb\\n' | \"$0\" seed all", 0, "b\na\n", "");
    ends("printf 'a\\nb' | \"$0\" seed 001", 0, "b\n", "");
    ends("printf '\\377\\0' | \"$0\" seed 0", 0, "", "");
}

#[test]
fn refusals() {
    let usage = "lots: usage: lots SEED COUNT|all < entrants\n";
    for arguments in [
        "",
        "seed",
        "seed all all",
        "'' all",
        "seed -1",
        "\"$(printf 'seed\\303')\" all",
        "seed \"$(printf '\\377')\"",
    ] {
        ends(&format!("\"$0\" {arguments} </dev/null"), 2, "", usage);
    }
    ends(
        "\"$0\" seed 1 </dev/null",
        3,
        "",
        "lots: 0 entrants, 1 asked for\n",
    );
    ends(
        "printf 'a\\n\\nb' | \"$0\" seed 1",
        4,
        "",
        "lots: line 2 is empty\n",
    );
}

#[test]
fn names() {
    let program = env!("CARGO_BIN_EXE_lots");
    by_each_name(program, &["seed", "0"], &(0, String::new(), String::new()));
    let few = "lots: 0 entrants, 1 asked for\n";
    by_each_name(program, &["seed", "1"], &(3, String::new(), few.into()));
}

#[test]
fn standard_input_that_cannot_be_read() {
    let failed = "lots: read failed\n";
    for count in ["0", "00", "1", "all", "18446744073709551615"] {
        for input in ["<&-", "<.", "0>/dev/null"] {
            ends(&format!("\"$0\" seed {count} {input}"), 6, "", failed);
        }
    }
    // Nothing is read if the arguments are bad.
    ends(
        "\"$0\" seed <&-",
        2,
        "",
        "lots: usage: lots SEED COUNT|all < entrants\n",
    );
}

/// The other end of a socket closes before it has read all bytes sent to it. This is not the end of
/// the list, which may be incomplete.
#[test]
fn standard_input_that_is_reset() {
    let (mut near, mut far) = UnixStream::pair().unwrap();
    far.write_all(b"a\nb\n").unwrap();
    near.write_all(b"c").unwrap();
    drop(far);
    let mut command = Command::new(env!("CARGO_BIN_EXE_lots"));
    command.args(["seed", "1"]).stdin(OwnedFd::from(near));
    let output = command.output().unwrap();
    let wanted = (Some(6), "", "lots: read failed\n");
    let text = |bytes| std::str::from_utf8(bytes).unwrap();
    let (out, err) = (text(&output.stdout), text(&output.stderr));
    assert_eq!((output.status.code(), out, err), wanted);
}

#[test]
fn standard_output_that_cannot_be_written() {
    let failed = "lots: write failed\n";
    for out in [">&-", ">/dev/full", "1</dev/null"] {
        ends(&format!("echo a | \"$0\" seed all {out}"), 7, "", failed);
        ends(&format!("echo a | \"$0\" seed 0 {out}"), 0, "", "");
        ends(&format!("echo a | \"$0\" seed all {out} 2>&-"), 7, "", "");
        ends(
            &format!("echo a | \"$0\" seed 2 {out}"),
            3,
            "",
            "lots: 1 entrants, 2 asked for\n",
        );
    }
    ends("\"$0\" seed all <&- >&-", 6, "", "lots: read failed\n");
    ends("\"$0\" seed all <&- >&- 2>&-", 6, "", "");
    // std opens `/dev/null` for reading and writing in place of a closed stream. A stream that the
    // user has opened like this does not count as closed.
    ends("\"$0\" seed all <>/dev/null 1<>/dev/null", 0, "", "");
}
