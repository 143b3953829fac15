#!/usr/bin/env bash
# Tests the crate of the C library, rust/nanorand-c, with cargo: tests/c_crate.sh. The last line is N passed, M failed.
# tests/c.sh tests the exports from C, and runs this script.
# shellcheck source=tests/lib.sh
source "$(dirname "${BASH_SOURCE[0]}")/lib.sh"
cd rust/nanorand-c || exit
oldest=$(sed -n 's/^rust-version = "\(.*\)"$/\1/p' Cargo.toml)

# Unsafe code is in one file, and a comment at each use says why it is safe.
unsafe_in_one_file() {
    [ "$(grep -lw 'unsafe {' src/*)" = src/boundary.rs ] &&
        [ "$(grep -cw 'unsafe {' src/boundary.rs)" -eq "$(grep -c '// SAFETY: ' src/boundary.rs)" ] &&
        ! grep -w unsafe src/* | grep -vE 'unsafe \{|^src/boundary.rs://!'
}

# Each public struct has the memory layout of C.
laid_out_as_in_c() {
    ! awk '/^pub struct/ && before !~ /^#\[repr\((C|transparent)\)\]$/ { print FILENAME ": " $0 } { before = $0 }' \
        src/*.rs | grep .
}

# The functions that the header declares.
declared() {
    sed -n 's/^#define nanorand_.* \(nanorand_v1_\)/\1/p' ../../c/include/nanorand.h | sort
}

# The shared library that cargo links exports the header's functions and no others.
exports_the_header() {
    cargo build --offline --release &&
        diff <(nm -D --defined-only target/release/libnanorand.so | awk '{ print $3 }' | sort) <(declared)
}

# The same for the archive that c/install builds with the oldest compiler. If that is the one of the other tests,
# c/tests/install.sh looks at it.
oldest_exports_the_header() {
    RUSTC=$oldest_bin/rustc PREFIX=$PWD/target/oldest/installed ../../c/install &&
        diff <(nm -g --defined-only target/oldest/installed/lib/libnanorand.a | awk 'NF == 3 { print $3 }' | sort) <(declared)
}

step cargo test --offline
step unsafe_in_one_file
step laid_out_as_in_c
step exports_the_header
step runs_on_every_processor target/release/libnanorand.so
if ! is_version "$oldest" "$oldest_bin/rustc"; then
    skip "the C library by rustc $oldest, the oldest that Cargo.toml names" "$oldest_bin has none"
elif ! is_version "$oldest" rustc; then
    step env RUSTC="$oldest_bin/rustc" "$oldest_bin/cargo" test --offline --target-dir target/oldest
    step oldest_exports_the_header
fi
clippy_and_format --all-targets
finish
