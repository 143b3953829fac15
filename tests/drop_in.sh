#!/usr/bin/env bash
# Tests the drop-in replacement for nanorand 0.7.0, rust/nanorand-drop-in, with cargo: tests/drop_in.sh.
#
# Its own tests come first; tests/packed.sh runs them with the oldest compiler. Then come clients of nanorand 0.7.0, built
# with Debian's packages: a program that names all public items, three million calls compared with 0.7.0, and unedited
# tests of 0.7.0 and of flume. The last line is N passed, M failed.
# shellcheck source=tests/lib.sh
source "$(dirname "${BASH_SOURCE[0]}")/lib.sh"
cd rust/nanorand-drop-in || exit
here=$PWD
original=$registry/nanorand-0.7.0
clients=$work/clients
export CARGO_TARGET_DIR=$here/target

# Writes the manifest of the client $1. Its own lines come from standard input.
client() {
    mkdir -p "$clients/$1"
    { cat; cat <<END; } >"$clients/$1/Cargo.toml"

[package]
name = "$1"
version = "0.1.0"
edition = "2021"
publish = false

[workspace]
END
}

# The unit tests of 0.7.0, in modules with the names that they have there, and its examples, unchanged.
tests_of_the_original() {
    client tests_of_the_original <<END
[dependencies]
nanorand = { path = "$here" }
hex = "0.4.3"
END
    local folder=$clients/tests_of_the_original/src
    mkdir -p "$folder"
    for file in lib buffer tls; do
        sed -nE 's,^//[/!] ?,,p' "$original/src/$file.rs" >"$folder/$file.md"
    done
    cat - <(tests_in gen) <(echo '} pub mod chacha { use nanorand::crypto::chacha::*;') \
        <(tests_in crypto/chacha) <(echo '}') >"$folder/lib.rs" <<END
pub use nanorand::*;
#[doc = include_str!("lib.md")]
pub struct Library;
#[doc = include_str!("buffer.md")]
pub struct Buffer;
#[doc = include_str!("tls.md")]
pub struct Thread;
#[doc = include_str!("$original/README.md")]
pub struct Readme;
pub mod gen {
END
    cargo_tests cargo test "${debian[@]}" --manifest-path "$clients/tests_of_the_original/Cargo.toml"
}

tests_in() {
    sed -n '/^#\[cfg(test)\]/,$p' "$original/src/$1.rs"
}

# The tests of flume. Only the patch in the manifest makes it use the drop-in.
flume() {
    timeout 900 cargo test "${debian[@]}" --manifest-path "$clients/flume/Cargo.toml" \
        --config "patch.crates-io.nanorand.path=\"$here\"" -- --exact "$@"
}

# Runs a command up to COUNT times, until it succeeds: turns COUNT COMMAND.. Tests of time, such as those of flume that
# must end within 50 ms, fail on a busy machine.
turns() {
    local turn status
    for ((turn = 0; turn < $1; turn++)); do
        status=0
        "${@:2}" >"$work/turn" 2>&1 && break
        status=1
    done
    cat "$work/turn"
    return "$status"
}

agrees() {
    client agrees <<END
[dependencies]
nanorand-proved = { path = "$here/../nanorand-proved" }
new = { package = "nanorand", path = "$here" }
old = { package = "nanorand", path = "$original" }

[[test]]
name = "agrees"
path = "$here/clients/agrees/main.rs"
END
    # Full optimization would take as long again to compile as it saves.
    CARGO_PROFILE_RELEASE_OPT_LEVEL=1 CARGO_PROFILE_RELEASE_CODEGEN_UNITS=1 \
        cargo_tests cargo test "${debian[@]}" --release --manifest-path "$clients/agrees/Cargo.toml"
}

# Compiles the program that names all public items, with the crate $1 and the features $2.
surface() {
    client surface <<END
[lib]
path = "$here/clients/surface.rs"

[dependencies]
nanorand = { path = "$1", default-features = false }
zeroize = { version = "1.5", optional = true, default-features = false }

[features]
alloc = ["nanorand/alloc"]
std = ["alloc", "nanorand/std"]
tls = ["std", "wyrand", "nanorand/tls"]
wyrand = ["nanorand/wyrand"]
pcg64 = ["nanorand/pcg64"]
chacha = ["nanorand/chacha"]
getrandom = ["nanorand/getrandom"]
zeroize = ["dep:zeroize", "nanorand/zeroize"]
without_std = []
END
    cargo check "${debian[@]}" --manifest-path "$clients/surface/Cargo.toml" --features "$2"
}

# The same program without std. If std were linked, its panic handler would be a second one, which is an error.
without_std() {
    local folder=target/without_std feature cfgs=()
    for feature in alloc wyrand pcg64 chacha without_std; do
        cfgs+=(--cfg "feature=\"$feature\"")
    done
    cargo rustc "${debian[@]}" --lib --no-default-features --features alloc,wyrand,pcg64,chacha \
        --target-dir "$folder" -- -D warnings &&
        rustc --edition 2021 --crate-type staticlib -C panic=abort -o "$folder/program.a" \
            "${cfgs[@]}" -L "dependency=$folder/debug/deps" --extern nanorand="$folder/debug/libnanorand.rlib" \
            clients/surface.rs
}

if ! packages zeroize-1. getrandom-0.2.; then
    skip_all 'the drop-in' 'the crates zeroize and getrandom are not there'
fi

cargo_tests cargo test "${debian[@]}"
cargo_tests cargo test "${debian[@]}" --all-features
cargo_tests cargo test "${debian[@]}" --no-default-features --features alloc,wyrand,pcg64,chacha
# Each feature enables what it needs.
for feature in std alloc tls wyrand pcg64 chacha getrandom zeroize rdseed; do
    step cargo check "${debian[@]}" --no-default-features --features "$feature"
done
step without_std
if [ -d /usr/lib/rustlib/x86_64-pc-windows-gnu ]; then
    step env PATH="/usr/bin:$PATH" RUSTFLAGS='-D warnings' CARGO_TARGET_DIR="$here/target/oldest" \
        cargo check "${debian[@]}" --target x86_64-pc-windows-gnu
else
    skip 'the drop-in for Windows' 'rustc has no std for it'
fi
step env RUSTDOCFLAGS='-D warnings' cargo doc "${debian[@]}" --no-deps
if cargo clippy --version >/dev/null 2>&1; then
    pedantic=(-- -D warnings -W clippy::pedantic)
    step cargo clippy "${debian[@]}" --all-targets --all-features "${pedantic[@]}"
    for features in '' alloc wyrand pcg64 chacha zeroize,wyrand; do
        step cargo clippy "${debian[@]}" --no-default-features --features "$features" "${pedantic[@]}"
    done
else
    skip 'clippy of the drop-in' 'it is not there'
fi
if cargo fmt --version >/dev/null 2>&1; then
    step cargo fmt --check
    step rustfmt --edition 2021 --check clients/surface.rs clients/agrees/main.rs
else
    skip 'the format of the drop-in' 'there is no rustfmt'
fi
if packages nanorand-0.7.0; then
    for features in '' alloc std wyrand pcg64 chacha tls std,pcg64 tls,pcg64,chacha,zeroize,getrandom; do
        step surface "$original" "$features"
        step surface "$here" "$features"
    done
    agrees
    if packages hex-0.4.; then
        tests_of_the_original
    else
        skip 'the tests of nanorand 0.7.0' 'the crate hex is not there'
    fi
else
    skip 'the drop-in beside nanorand 0.7.0' 'that crate is not there'
fi
if packages flume-0.10.; then
    cp -r "$registry"/flume-0.10.* "$clients/flume"
    # It calls nanorand only to select a channel, which of the files of tests only `basic` does, and documentation. The
    # other tests, the benchmark, the examples and the crates that these need would take minutes to compile.
    rm -r "$clients/flume/benches" "$clients/flume/examples"
    find "$clients/flume/tests" -type f ! -name basic.rs -delete
    sed -i '/^\[dev-dependencies\]/,$d' "$clients/flume/Cargo.toml"
    cargo_tests turns 5 flume --skip send_timeout --skip recv_timeout --skip recv_deadline
    cargo_tests turns 20 flume send_timeout recv_timeout recv_deadline
else
    skip 'the tests of flume 0.10 over the drop-in' 'that crate is not there'
fi
finish
