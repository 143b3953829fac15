#!/usr/bin/env bash
# Compares the libraries on pseudorandom calls, the same in each run: tests/against_c.sh.
#
# The Rust crate is compared with the proved static library, and the latter, function by function, with the static
# library that cargo builds. Without the kit, the Rust crate is compared with cargo's library only. Prints N passed, M
# failed.
# shellcheck source=tests/lib.sh
source "$(dirname "${BASH_SOURCE[0]}")/lib.sh"
archives=tests/against_c/target/archives

if ! available cargo cargo rustc rustc cc gcc; then
    skip_all 'the Rust crate beside the static libraries' 'there is no cargo, rustc or cc'
fi
rm -rf "$archives"
mkdir -p "$archives"
PREFIX=$work c/install || exit
if command -v rt >/dev/null; then
    tests/build.sh library || exit
    cp crates/nanorand_c/out/libnanorand_c.a "$archives/libone.a"
    # Both libraries have the same names, so those of one are changed.
    tools/header.py --symbols | sed 's/nanorand_v1_\(.*\)/& other_\1/' >"$work/renamed"
    objcopy --redefine-syms="$work/renamed" "$work/lib/libnanorand.a" "$archives/libother.a"
    tests=()
else
    skip 'the proved static library beside the others' 'there is no kit'
    cp "$work/lib/libnanorand.a" "$archives/libone.a"
    tests=(--test agrees --test lots)
fi
cargo_tests cargo test --offline --release --manifest-path tests/against_c/Cargo.toml "${tests[@]}"
finish
