#!/usr/bin/env bash
# Compiles the module for 32-bit memory into a file:
#
#     web/module32.sh web/dist/nanorand_c32.wasm
#
# The module is rust/nanorand-c with the two crates that it uses, compiled by Debian's rustc, which needs its std for
# wasm32-unknown-unknown. The same sources and the same rustc produce the same bytes, in whichever folder they are.
# Exits with status 3 if there is no such compiler.
set -euo pipefail
unset CDPATH # otherwise `cd` may go elsewhere
into=$(realpath -m "$1")
cd "$(dirname "$0")/.."
target=wasm32-unknown-unknown
bin=${NANORAND_OLDEST:-/usr}
std="$bin/lib/rustlib/$target/lib/libstd-*.rlib"

if [ ! -x "$bin/bin/rustc" ] || ! compgen -G "$std" >/dev/null; then
    echo "web/module32.sh: there is no $bin/bin/rustc with the std of $target" >&2
    exit 3
fi
room=$(mktemp -d)
trap 'rm -rf "$room"' EXIT

# compile CRATE SOURCE ARGUMENT..
compile() {
    "$bin/bin/rustc" --crate-name "$1" "$2" --edition 2021 --target "$target" --out-dir "$room" -L "$room" \
        -C opt-level=3 -C panic=abort -C codegen-units=1 --remap-path-prefix "$PWD=." "${@:3}"
}

compile nanorand_proved rust/nanorand-proved/src/lib.rs --crate-type rlib -C embed-bitcode=yes
compile lots rust/lots/src/lib.rs --crate-type rlib -C embed-bitcode=yes --extern nanorand_proved
compile nanorand rust/nanorand-c/src/lib.rs --crate-type cdylib -C lto=fat -C strip=symbols --extern nanorand_proved --extern lots
mkdir -p "$(dirname "$into")"
cp "$room/nanorand.wasm" "$into"
