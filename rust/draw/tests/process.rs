//! The program as a process: its arguments, its streams and its exit status.
#![cfg(target_os = "linux")]

#[path = "common/process.rs"]
mod process;

use process::{by_each_name, shell};

/// Asserts the status of the commands and what they write to each stream. `$draw` draws a number.
fn ends(commands: &str, status: i32, out: &str, err: &str) {
    let program = env!("CARGO_BIN_EXE_draw");
    let commands = commands.replace("$draw", "\"$0\" wyrand d29b42879be2895f plain 0 u64");
    let wanted = (status, out.into(), err.into());
    assert_eq!(shell(program, &commands), wanted, "{commands}");
}

#[test]
fn arguments() {
    let number = "16646288086500911322\n";
    ends("$draw", 0, number, "");
    ends("$draw <&-", 0, number, "");
    ends("$draw u9", 2, "", "draw: bad word 6\n");
    ends("\"$0\"", 2, "", "draw: bad word 1\n");
    ends("$draw \"$(printf '\\377')\"", 3, "", "draw: no memory\n");
}

#[test]
fn names() {
    let program = env!("CARGO_BIN_EXE_draw");
    let words = ["wyrand", "d29b42879be2895f", "plain", "0", "u64"];
    let number = (0, "16646288086500911322\n".into(), String::new());
    by_each_name(program, &words, &number);
    let bad = (2, String::new(), "draw: bad word 1\n".into());
    by_each_name(program, &[], &bad);
}

#[test]
fn standard_output_that_cannot_be_written() {
    for out in [">&-", ">/dev/full", "1</dev/null"] {
        for input in ["", "<&-", "</dev/null"] {
            let streams = format!("{input} {out}");
            ends(&format!("$draw {streams}"), 4, "", "draw: write failed\n");
            ends(&format!("$draw {streams} 2>&-"), 4, "", "");
            let nothing = format!("\"$0\" wyrand d29b42879be2895f plain 0 {streams}");
            ends(&nothing, 0, "", "");
        }
    }
    ends("$draw 1<>/dev/null", 0, "", "");
}
