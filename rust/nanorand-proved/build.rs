//! Sets the cfg `diagnostic_hints` if the compiler supports `#[diagnostic::on_unimplemented]`,
//! which it does from Rust 1.78 on, and the cfg `do_not_recommend` if it supports
//! `#[diagnostic::do_not_recommend]`, which it does from 1.85 on. From 1.80 on, cargo is also told
//! that these exist, so that it does not warn about them.

use std::process::Command;

fn main() {
    println!("cargo:rerun-if-changed=build.rs");
    let minor = minor_version();
    if minor.map_or(true, |minor| 80 <= minor) {
        println!("cargo:rustc-check-cfg=cfg(diagnostic_hints, do_not_recommend)");
    }
    if minor.map_or(false, |minor| 78 <= minor) {
        println!("cargo:rustc-cfg=diagnostic_hints");
    }
    if minor.map_or(false, |minor| 85 <= minor) {
        println!("cargo:rustc-cfg=do_not_recommend");
    }
}

/// Returns the minor version of the compiler, such as 80 for `rustc 1.80.1 (..)`, or `None` if it
/// cannot be read.
fn minor_version() -> Option<u32> {
    let rustc = std::env::var_os("RUSTC")?;
    let said = Command::new(rustc).arg("--version").output().ok()?;
    let text = String::from_utf8(said.stdout).ok()?;
    text.strip_prefix("rustc 1.")?
        .split('.')
        .next()?
        .parse()
        .ok()
}
