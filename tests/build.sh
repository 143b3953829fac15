#!/usr/bin/env bash
# Builds what other parts of the test run. Each PIECE is library, page, draw or lots:
#
#     tests/build.sh PIECE..
#
# For example, tests/build.sh library draw. A program is left as crates/NAME/out/NAME, compiled by LLVM, and as
# NAME.by-rattle, compiled by Rattle's own compiler.
#
# By default rt proves each piece first. If PROVED names a checkout in which rt ci has passed, its programs are copied,
# and the library and the page's module are compiled with the libraries that it left, because rt would prove all of
# these again. If BUILT is set, ./test has built the pieces already, and the script does nothing.
set -euo pipefail
unset CDPATH # otherwise `cd` may go elsewhere
cd "$(dirname "$0")/.."
unset RT_BACKEND
crate=nanorand_c

# Compiles the crate of exports for the target $1 into the file $2, with the libraries that rt ci left. What is proved
# for one target serves the other.
compile() {
    local kit words
    kit=$(dirname "$(rt doc)")
    mapfile -t words < <(tools/crates.py words "$crate" "$PROVED")
    "$kit/bin/rattle" build --crate-name "$crate" "$PROVED/crates/$crate/src/lib.rt" --crate-type staticlib "${words[@]}" \
        --jobs 2 --incremental "$PROVED/crates/$crate/out/incremental" --target "$1" --toolchain "$kit/toolchain" \
        --backend llvm -o "$2"
}

library() {
    if [ -z "${PROVED:-}" ]; then
        (cd "crates/$crate" && rt lib)
    else
        mkdir -p "crates/$crate/out"
        compile x86_64-unknown-linux-gnu "crates/$crate/out/lib$crate.a"
    fi
}

page() {
    local kit room
    if [ -z "${PROVED:-}" ]; then
        web/build.py
    else
        kit=$(dirname "$(rt doc)")
        room=$(mktemp -d)
        compile wasm64-unknown-unknown "$room/module.a"
        "$kit/bin/rattle-link" --target wasm64-unknown-unknown --toolchain "$kit/toolchain" -o "$room/module.wasm" "$room/module.a"
        web/build.py "$room/module.wasm"
        rm -r "$room"
    fi
}

# Builds the program $1. `rt run` also runs it, with the arguments that follow, with which it succeeds.
program() {
    local name=$1 out=crates/$1/out
    shift
    if [ -n "${PROVED:-}" ]; then
        mkdir -p "$out"
        cp "$PROVED/$out/$name" "$PROVED/$out/$name.by-rattle" "$out/"
        return
    fi
    # The last build, by LLVM, is the one that stays as $name.
    rm -f "$out/$name"
    (cd "crates/$name" && rt run --backend rattle -- "$@")
    mv "$out/$name" "$out/$name.by-rattle"
    (cd "crates/$name" && rt run --backend llvm -- "$@")
}

for piece in "$@"; do
    [ -z "${BUILT:-}" ] || continue
    case $piece in
        library | page) "$piece" ;;
        draw) program draw wyrand 0000000000000000 plain 0 ;;
        lots) program lots seed all ;;
        *) echo 'usage: tests/build.sh PIECE.., each library, page, draw or lots' >&2 && exit 2 ;;
    esac </dev/null
done
