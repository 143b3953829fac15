//! Runs a program from a shell, and under other names.

use std::ffi::OsStr;
use std::os::unix::ffi::OsStrExt;
use std::os::unix::process::CommandExt;
use std::process::{Command, Stdio};

/// Names with which a program may be started: an empty one, arguments, bytes that are not UTF-8.
const NAMES: [&[u8]; 6] = [b"", b"draw", b"seed", b"a b\n", b"\xff", b"/tmp/\xc3"];

/// The status of the commands, and what they wrote to standard output and standard error. Their
/// `$0` is the program.
pub fn shell(program: &str, commands: &str) -> (i32, String, String) {
    ended(Command::new("sh").args(["-c", commands, program]))
}

/// Asserts that the program does the same under each name, with these arguments and no input.
pub fn by_each_name(program: &str, arguments: &[&str], wanted: &(i32, String, String)) {
    for name in NAMES {
        let mut command = Command::new(program);
        command.arg0(OsStr::from_bytes(name)).args(arguments);
        assert_eq!(&ended(command.stdin(Stdio::null())), wanted, "{name:?}");
    }
}

fn ended(command: &mut Command) -> (i32, String, String) {
    let output = command.output().unwrap();
    let text = |bytes| String::from_utf8(bytes).unwrap();
    (
        output.status.code().unwrap(),
        text(output.stdout),
        text(output.stderr),
    )
}
