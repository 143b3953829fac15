//! Links the archives that `tests/against_c.sh` puts into `target/archives`: `libone.a` and, if it
//! is there, `libother.a`.

fn main() {
    let folder = concat!(env!("CARGO_MANIFEST_DIR"), "/target/archives");
    println!("cargo:rerun-if-changed={folder}");
    println!("cargo:rustc-link-search=native={folder}");
    for name in ["one", "other"] {
        if std::path::Path::new(&format!("{folder}/lib{name}.a")).exists() {
            println!("cargo:rustc-link-lib=static={name}");
        }
    }
}
