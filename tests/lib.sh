# shellcheck shell=bash
# Shared functions of the test scripts. A script sources this file first:
#
#     source "$(dirname "${BASH_SOURCE[0]}")/lib.sh"
#
# It then runs at the top of the repository, $work is a temporary folder, and $passed and $failed count its cases. Its
# last command is `finish`, which prints the sum and exits.
set -uo pipefail
unset CDPATH # otherwise `cd` may go elsewhere
cd "$(dirname "${BASH_SOURCE[0]}")/.." || exit
work=$(mktemp -d)
trap 'rm -rf "$work"' EXIT
passed=0
failed=0
# No test reads debug information, and producing it takes a fifth of rustc's time. Most target folders are new, so
# incremental compilation and many units for each crate would only take time.
export CARGO_PROFILE_DEV_DEBUG=0 CARGO_PROFILE_TEST_DEBUG=0 CARGO_PROFILE_DEV_STRIP=debuginfo
export CARGO_INCREMENTAL=0 CARGO_PROFILE_DEV_CODEGEN_UNITS=1
# The programs of doctests are linked without the debug information of std.
export RUSTDOCFLAGS='-C strip=debuginfo'
# The bin folder of the oldest compiler that the packages support.
# shellcheck disable=SC2034
oldest_bin=${NANORAND_OLDEST:-/usr}/bin

# Debian's packages of Rust crates, and the options by which cargo takes crates from them.
registry=/usr/share/cargo/registry
# shellcheck disable=SC2034
debian=(--offline --config 'source.crates-io.replace-with="debian"' --config "source.debian.directory=\"$registry\"")

# Prints the sum and ends the script, with status 0 if nothing failed, else 1.
finish() {
    printf '%s passed, %s failed\n' "$passed" "$failed"
    [ "$failed" -eq 0 ]
    exit
}

# Whether the script is to test what $1 built, cargo or kit. Without an argument, a script tests both.
asked=${1:-}
asked_for() {
    [ -z "$asked" ] || [ "$asked" = "$1" ]
}

# Says that the tests of $1 are skipped, because $2.
skip() {
    printf 'skipped: %s, as %s\n' "$1" "$2"
}

# The same, and ends the script: nothing else is left to test.
skip_all() {
    skip "$@"
    finish
}

# Counts the case $1. It passed if $2 is empty; otherwise $2 says what was wrong.
check() {
    if [ -z "$2" ]; then
        passed=$((passed + 1))
    else
        failed=$((failed + 1))
        printf 'FAILED %s: %s\n' "$1" "$2"
    fi
}

# Counts the case $1. It passed if the found text $3 equals the expected text $2.
expect() {
    check "$1" "$([ "$2" = "$3" ] || printf 'expected %q, found %q' "$2" "$3")"
}

# Runs a command, counts it by its status, and shows its output if it failed.
step() {
    printf '== %s\n' "$*"
    if "$@" >"$work/log" 2>&1 </dev/null; then
        passed=$((passed + 1))
    else
        cat "$work/log"
        printf 'FAILED %s\n' "$*"
        failed=$((failed + 1))
        return 1
    fi
}

# Adds the sum in the last line of the file $1. $2 is the status of the command that printed it. A file without a sum
# counts as a failure, and so does a status other than 0 if the sum has no failure.
add_sum() {
    if [[ $(tail -n 1 "$1") =~ ^([0-9]+)\ passed,\ ([0-9]+)\ failed$ ]]; then
        passed=$((passed + BASH_REMATCH[1]))
        failed=$((failed + BASH_REMATCH[2]))
        [ "$2" -eq 0 ] || [ "${BASH_REMATCH[2]}" -gt 0 ] || failed=$((failed + 1))
    else
        printf 'FAILED: status %s, and no sum in the last line\n' "$2"
        failed=$((failed + 1))
    fi
}

# Runs a command whose last line is its sum, shows its output and adds the sum.
part() {
    printf '== %s\n' "$*"
    "$@" 2>&1 </dev/null | tee "$work/log"
    add_sum "$work/log" "${PIPESTATUS[0]}"
}

# The same for one of many short parts, with the name $1: shows only what it skipped and what failed. A part without
# tests failed.
quiet_part() {
    local name=$1 status=0
    shift
    "$@" >"$work/log" 2>&1 </dev/null || status=$?
    sed -n '/^skipped: /p' "$work/log"
    sed '/^skipped: /d; /^[0-9]* passed, [0-9]* failed$/d' "$work/log" | sed "s|^|$name: |"
    ! grep -qx '0 passed, 0 failed' "$work/log" || status=1
    add_sum "$work/log" "$status"
}

# Runs a command of cargo that tests, and counts each test. A run without tests failed.
cargo_tests() {
    local good bad status=0
    printf '== %s\n' "$*"
    "$@" >"$work/log" 2>&1 </dev/null || status=$?
    good=$(awk '/^test result:/ { sum += $4 } END { print sum + 0 }' "$work/log")
    bad=$(awk '/^test result:/ { sum += $6 } END { print sum + 0 }' "$work/log")
    if [ "$status" -ne 0 ] || [ "$good" -eq 0 ]; then
        cat "$work/log"
        bad=$((bad > 0 ? bad : 1))
    fi
    passed=$((passed + good))
    failed=$((failed + bad))
}

# Runs tests of Python's unittest, with the name $1, counts each and lists the skipped ones. A run without tests failed.
unit_tests() {
    local ran bad left status=0
    printf '== %s\n' "$1"
    shift
    "$@" -v >"$work/log" 2>&1 </dev/null || status=$?
    ran=$(sed -n 's/^Ran \([0-9]*\) tests* in .*/\1/p' "$work/log")
    bad=$(grep -c '^FAIL: \|^ERROR: ' "$work/log")
    left=$(sed -n 's/.*skipped=\([0-9]*\).*/\1/p' "$work/log" | tail -n 1)
    if [ "$status" -ne 0 ] || [ "${ran:-0}" -eq 0 ]; then
        cat "$work/log"
        bad=$((bad > 0 ? bad : 1))
    fi
    ran=$((${ran:-0} > bad ? ran : bad))
    passed=$((passed + ran - bad - ${left:-0}))
    failed=$((failed + bad))
    sed -n "s/^\(\w*\) (.*skipped ['\"]\(.*\)['\"]\$/skipped: \1, as \2/p" "$work/log" | sort -u
}

# Whether the command $1 is on the PATH. If $1 is a pattern of absolute paths: whether a file matches it.
is_there() {
    case $1 in
    /*) compgen -G "$1" >/dev/null ;;
    *) command -v "$1" >/dev/null ;;
    esac
}

# Whether these commands are there (or files, as in `is_there`): available COMMAND PACKAGE.., each with the Debian package
# that has it. If some are not and CI is `true`, root installs their packages, by one call, since each call of apt-get
# takes seconds, and one script at a time. If the lists of packages are too old for that, it updates them, and then
# installs each package by itself. For what is still missing, it prints what to install.
available() {
    local absent package
    mapfile -t absent < <(absent "$@")
    if [ ${#absent[@]} -gt 0 ] && [ "${CI:-}" = true ] && [ "$(id -u)" -eq 0 ] && command -v apt-get >/dev/null; then
        apt_get install --yes "${absent[@]}" || {
            apt_get update
            for package in "${absent[@]}"; do
                apt_get install --yes "$package"
            done
        }
        mapfile -t absent < <(absent "$@")
    fi
    for package in "${absent[@]}"; do
        printf 'to install: %s\n' "$package"
    done
    [ ${#absent[@]} -eq 0 ]
}

# The packages of the commands that are not there, among these commands and packages.
absent() {
    while [ $# -gt 0 ]; do
        is_there "$1" || printf '%s\n' "$2"
        shift 2
    done
}

# Whether Debian's packages of these crates are there, in the versions that begin so: packages rand_core-0.6. hex-0.4.
packages() {
    local crate name pairs=()
    for crate; do
        name=${crate%-*}
        pairs+=("$registry/$crate*" "librust-${name//_/-}-dev")
    done
    available "${pairs[@]}"
}

# Whether the Python $1 has venv and its own headers, which Debian packages separately.
can_build() {
    has_what_builds "$1" && return
    available '/usr/lib/python3.*/ensurepip' python3-venv '/usr/include/python3.*/Python.h' python3-dev
    has_what_builds "$1"
}

has_what_builds() {
    "$1" -c 'import ensurepip, os, sysconfig, venv
paths = sysconfig.get_paths()
assert any(os.path.isfile(paths[name] + "/Python.h") for name in ("include", "platinclude"))' 2>/dev/null
}

apt_get() {
    DEBIAN_FRONTEND=noninteractive flock "${TMPDIR:-/tmp}/nanorand-tests-install" apt-get --quiet "$@" \
        >/dev/null 2>&1 </dev/null
}

# Writes the command $1, which c/install may have as RUSTC: it compiles by rustc and keeps the library of C as $1.a. If
# that is there, it gives it. So what does not depend on how the library is compiled needs it compiled once.
rustc_once() {
    cat >"$1" <<'END'
#!/bin/bash
[ -e "$0.a" ] || rustc "$@" || exit
while [ "$1" != --out-dir ]; do shift; done
if [ -e "$0.a" ]; then
    install "$0.a" "$2/libnanorand.a"
elif [ -e "$2/libnanorand.a" ]; then
    install "$2/libnanorand.a" "$0.a"
fi
END
    chmod +x "$1"
}

# The PATH without the folders that hold the kit.
path_without_kit() {
    local folder kept=()
    while IFS= read -r -d : folder; do
        [ -x "$folder/rt" ] || kept+=("$folder")
    done <<<"$PATH:"
    (IFS=: && printf '%s\n' "${kept[*]}")
}

# Whether a library runs on every x86-64 processor: AVX instructions, and those that x86-64-v2 and v3 add for bytes,
# counts, products and shifts, are only in the functions for AVX2, which the library calls after it has asked the
# processor: `with_avx2` for three numbers of rounds, and `next_with_avx2`. Prints the functions that have some.
#
# In a file without names, a function begins where a `call` leads, and only the number of such functions is compared. It
# is $2, by default 4; what is linked from several objects may have a function twice.
runs_on_every_processor() {
    local later='\<v[a-z0-9]+ .*%[xyz]mm[0-9]|\<(vzeroupper|pshufb|p(ins|ext)r[bdq]|popcnt|mulx|rorx|andn|s[ahl][lr]x)\>'
    local named='<.*avx2.*with_avx2.*>:$'
    objdump -d --no-show-raw-insn "$1" >"$work/code" || return
    if grep -q "$named" "$work/code"; then
        grep -E "^[0-9a-f]+ <.*>:\$|$later" "$work/code" | awk '/>:$/ { name = $2; next } { print name }'
    else
        { sed -nE 's/.*\tcall +([0-9a-f]+)( .*)?$/\1 begins/p' "$work/code"
            grep -E "$later" "$work/code" | sed -E 's/^ *([0-9a-f]+):.*/\1 later/'; } |
            awk '{ printf "%16s %s\n", $1, $2 }' | sort |
            awk '$2 == "begins" { name = $1 } $2 == "later" { print name }'
    fi | sort -u | tee "$work/later"
    [ "$(wc -l <"$work/later")" -eq "${2:-4}" ] && { ! grep -q "$named" "$work/code" || ! grep -v "$named" "$work/later"; }
}

# Whether the version of the command $2 is $1 and any patch number, such as 1.63.0 for 1.63.
is_version() {
    grep -qF " $1." <<<"$("$2" --version 2>/dev/null)"
}

# Lints a package with clippy, which gets these options, and checks its format with rustfmt.
clippy_and_format() {
    if cargo clippy --version >/dev/null 2>&1; then
        step cargo clippy --offline "$@" -- -D warnings -W clippy::pedantic
    else
        skip clippy 'it is not there'
    fi
    if cargo fmt --version >/dev/null 2>&1; then
        step cargo fmt --all --check
    else
        skip 'the format of Rust' 'there is no rustfmt'
    fi
}
