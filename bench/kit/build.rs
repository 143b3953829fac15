//! Links the static library that `rt lib` builds in `crates/nanorand_bench`, and moves all code by
//! `NANORAND_SHIFT` bytes.

// An address above all other sections of the program, and a multiple of every alignment.
const TEXT: u64 = 16 << 20;

fn variable(name: &str) -> String {
    println!("cargo::rerun-if-env-changed={name}");
    std::env::var(name).expect("the script `run` starts this program")
}

fn main() {
    let folder = variable("NANORAND_ARCHIVES");
    let shift: u64 = variable("NANORAND_SHIFT")
        .parse()
        .expect("a number of bytes");
    println!("cargo::rerun-if-changed={folder}/libnanorand_bench.a");
    println!("cargo::rustc-link-search=native={folder}");
    println!("cargo::rustc-link-lib=static=nanorand_bench");
    println!(
        "cargo::rustc-link-arg=-Wl,--section-start=.text={:#x}",
        TEXT + shift
    );
}
