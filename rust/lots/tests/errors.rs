//! The status after a read of standard input that fails with any error number of the system.
#![cfg(target_os = "linux")]

#[path = "common/failing.rs"]
mod failing;

use failing::{answered, Answer};
use lots::run::{report, run};
use nanorand_program::input;
use std::io::sink;

const LIST: &[u8] = b"Ada\nBob\n";
const EINTR: i32 = 4;
const ENOMEM: i32 = 12;

/// The status, and whether a result was written.
fn ended(answers: &[Answer]) -> (u8, bool) {
    let arguments = ["seed", "all"].map(String::from);
    let mut out = Vec::new();
    let outcome = answered(answers, || run(&arguments, &mut input(), &mut out));
    (report(outcome, &mut sink()), !out.is_empty())
}

/// No error counts as the end of the list, whatever was read before. After an interruption, reading
/// continues.
#[test]
fn a_read_that_fails_by_every_number() {
    for number in 1..134 {
        let wanted = match number {
            EINTR => (0, true),
            ENOMEM => (5, false),
            _ => (6, false),
        };
        for place in 1..=LIST.len() {
            let (before, after) = LIST.split_at(place);
            let answers = [Ok(before), Err(number), Ok(after), Ok(&[])];
            assert_eq!(ended(&answers), wanted, "{number} at {place}");
        }
        let answers = [Err(number), Ok(LIST), Ok(&[])];
        assert_eq!(ended(&answers), wanted, "{number} at first");
    }
}
