#!/bin/sh
# Measures the kit's build of nanorand and prints a table: bench/kit/run.sh [FOLDER].
#
# For example, bench/kit/run.sh ~/nanorand-0.7.0. FOLDER has the old Rust crate (Cargo.toml and src/), which is measured
# as well. It is used in place; nothing of it is copied.
#
# Both sides are compiled for the same processor and fully optimized: the static library by `rt lib`, at -O3, and the
# rest by cargo, at the opt-level of Cargo.toml.
#
# The speed of a short loop depends on its position in the 64-byte lines that a processor reads. All functions begin at
# multiples of 16 bytes. So the program is linked four times, each time with all its code 16 bytes further on: each loop
# of both sides is measured at each position that it can have.
set -eu
unset CDPATH # otherwise `cd` may go elsewhere
cpu=x86-64-v2
shifts="0 16 32 48"

here=$(cd "$(dirname "$0")" && pwd)
work=$here/target/project
mkdir -p "$work"

(cd "$here/../../crates/nanorand_bench" && rt lib) > "$work/lib.log" 2>&1 || {
    cat "$work/lib.log" >&2
    exit 1
}
grep -q "^logic=proved .* cpu=$cpu " "$work/lib.log" || {
    echo "the static library is not compiled for $cpu" >&2
    exit 1
}

{
    cat "$here/Cargo.toml"
    printf '\n[[bin]]\nname = "bench"\npath = "%s/src/main.rs"\n' "$here"
    if [ $# -gt 0 ]; then
        printf '\n[dependencies]\nnanorand = { path = "%s" }\n' "$(cd "$1" && pwd)"
    fi
    printf '\n[workspace]\n'
} > "$work/Cargo.toml"
cp "$here/build.rs" "$work/build.rs"

NANORAND_ARCHIVES=$here/../../crates/nanorand_bench/out
RUSTFLAGS="-C target-cpu=$cpu"
export NANORAND_ARCHIVES RUSTFLAGS
features=
[ $# -eq 0 ] || features="--features original"

for shift in $shifts; do
    # shellcheck disable=SC2086
    NANORAND_SHIFT=$shift cargo build --quiet --offline --release --manifest-path "$work/Cargo.toml" \
        --target-dir "$here/target" $features 2> "$work/build.log" || {
        cat "$work/build.log" >&2
        exit 1
    }
    cp "$here/target/release/bench" "$work/bench$shift"
done

# The builds take turns, so that a busy moment of the machine affects all builds.
rm -f "$work"/times*
for _ in 1 2 3 4 5; do
    for shift in $shifts; do
        "$work/bench$shift" >> "$work/times$shift"
    done
done
exec "$work/bench0" table "$work"/times*
