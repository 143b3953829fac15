#!/usr/bin/env bash
# Tests the stream of each generator with dieharder, and prints a summary: bench/quality/run.sh [TEST..].
#
# Without a TEST, all tests (`dieharder -a`) are run on each stream, which takes hours. A TEST is a number of
# `dieharder -l`, optionally with a colon and a value for `-n`, such as 203:4. These tests then read the stream one
# after another: each continues where the one before stopped, or up to 4 KiB later. The outputs stay in
# bench/target/quality/outputs.
#
# These are statistical tests. They prove nothing about a generator.
set -euo pipefail
unset CDPATH # otherwise `cd` may go elsewhere
here=$(cd "$(dirname "$0")" && pwd)
work=$here/../target/quality
outputs=$work/outputs
at_once=4

# A generator's seed is the first of these 40 bytes, as many as it needs: the hexadecimal digits of pi after the point,
# or NANORAND_SEED.
bytes=${NANORAND_SEED:-243f6a8885a308d313198a2e03707344a4093822299f31d0082efa98ec4e6c89452821e638d01377}
streams="wyrand pcg64 pcg64-low pcg64-high chacha8 chacha12 chacha20"

seed_of() {
    case $1 in
        wyrand) echo "${bytes:0:16}" ;;
        pcg64*) echo "${bytes:0:32}" ;;
        chacha*) echo "$bytes" ;;
    esac
}

# Tests the stream on standard input.
run_tests() {
    local test number n
    if [ $# -eq 0 ]; then
        dieharder -a -g 200
    fi
    for test in "$@"; do
        IFS=: read -r number n <<< "$test"
        dieharder -d "$number" -n "${n:-0}" -g 200
    done
}

if ! command -v dieharder > /dev/null; then
    echo 'dieharder, a package of Debian, is not installed' >&2
    exit 1
fi
mkdir -p "$outputs"
(cd "$here/../../crates/nanorand_c" && rt lib) > "$work/lib.log" 2>&1 || {
    cat "$work/lib.log" >&2
    exit 1
}
cargo build --quiet --offline --release --manifest-path "$here/Cargo.toml" --target-dir "$work"

jobs=()
for stream in $streams; do
    while [ "$(jobs -rp | wc -l)" -ge "$at_once" ]; do
        sleep 1
    done
    "$work/release/quality" "$stream" "$(seed_of "$stream")" | run_tests "$@" > "$outputs/$stream" &
    jobs+=($!)
done
for job in "${jobs[@]}"; do
    wait "$job"
done

dieharder -l | sed -nE 's/.*(dieharder version [^ ]+).*/\1/p'
echo "tests: ${*:-all, by -a}"
echo
echo '| Stream | Seed | Passed | Weak | Failed |'
echo '|---|---|---|---|---|'
for stream in $streams; do
    # shellcheck disable=SC2016
    printf '| `%s` | `%s` ' "$stream" "$(seed_of "$stream")"
    awk -F '|' '
        { gsub(/ /, ""); count[$6]++ }
        END { printf "| %d | %d | %d |\n", count["PASSED"], count["WEAK"], count["FAILED"] }
    ' "$outputs/$stream"
done
echo
for stream in $streams; do
    awk -F '|' -v stream="$stream" '
        { gsub(/ /, "") }
        $6 == "WEAK" || $6 == "FAILED" { printf "%s: %s %s, p = %s: %s\n", stream, $1, $2, $5, $6 }
    ' "$outputs/$stream"
done
