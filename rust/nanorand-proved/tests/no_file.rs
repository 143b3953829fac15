//! Seeds from the system in a process that cannot open any more files.
#![cfg(all(unix, feature = "std"))]

use nanorand_proved::{ChaCha20, ChaCha20Stream, Pcg64, WyRand};
use std::env;
use std::fs::File;
use std::process::Command;

const FEW_FILES: &str = "NANORAND_FEW_FILES";

/// The process starts itself again, with a lower limit of open files.
#[test]
fn no_file_is_opened() {
    if env::var_os(FEW_FILES).is_some() {
        return seeds_without_files();
    }
    let program = env::current_exe().expect("the path of this program");
    let mut limited = Command::new("sh");
    limited
        .args(["-c", "ulimit -n 40 && exec \"$0\""])
        .arg(program);
    let status = limited.env(FEW_FILES, "").status().expect("a shell");
    assert!(status.success(), "{status}");
}

fn seeds_without_files() {
    let opened = || File::open("Cargo.toml").ok();
    let held: Vec<File> = std::iter::from_fn(opened).take(100).collect();
    assert!((1..100).contains(&held.len()));
    assert!(WyRand::from_entropy().is_ok());
    assert!(Pcg64::from_entropy().is_ok());
    assert!(ChaCha20::from_entropy().is_ok());
    assert!(ChaCha20Stream::from_entropy().is_ok());
}
