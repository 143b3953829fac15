#!/usr/bin/env bash
# Compiles rust/nanorand-proved for other targets: tests/targets.sh. The last line is N passed, M failed.
#
# For each target whose std the oldest supported compiler has, it compiles the library with and without its feature std,
# and runs the library's tests/targets/program.rs if there are a linker and a command that runs it. For ARM with NEON and
# for a big-endian processor it also runs the unit tests of the two files with unsafe code, which compare vectors with
# scalar code; for 32-bit processors, only those of system.rs. The numbers of the system call for each processor are compared with those of the crate libc.
# NANORAND_OLDEST names the folder that has bin/rustc (/usr by default), and NANORAND_STD a folder with the std of
# further targets.
# shellcheck source=tests/lib.sh
source "$(dirname "${BASH_SOURCE[0]}")/lib.sh"
oldest=${NANORAND_OLDEST:-/usr}
out=../../target/targets
cd rust/nanorand-proved || exit
export PATH=$PATH:/usr/lib/wine WINEPREFIX=$work/wine WINEDEBUG=-all WINEDLLOVERRIDES='mscoree,mshtml='

# Each target, its linker, and the command that runs its programs.
targets='
x86_64-unknown-linux-gnu      cc                      env
i686-unknown-linux-gnu        i686-linux-gnu-gcc      qemu-i386 -L /usr/i686-linux-gnu
armv7-unknown-linux-gnueabihf arm-linux-gnueabihf-gcc qemu-arm -L /usr/arm-linux-gnueabihf
aarch64-unknown-linux-gnu     aarch64-linux-gnu-gcc   qemu-aarch64 -L /usr/aarch64-linux-gnu
s390x-unknown-linux-gnu       s390x-linux-gnu-gcc     qemu-s390x -L /usr/s390x-linux-gnu
x86_64-pc-windows-gnu         x86_64-w64-mingw32-gcc  wine64
wasm32-unknown-unknown        rust-lld                node tests/targets/load.mjs
wasm32-wasi                   rust-lld                node tests/targets/load.mjs
'

# The folder with the std of a target.
std_of() {
    local folder
    for folder in "$oldest/lib/rustlib" "${NANORAND_STD:-}"; do
        if compgen -G "$folder/$1/lib/libstd-*.rlib" >/dev/null; then
            printf '%s\n' "$folder/$1/lib"
            return
        fi
    done
    return 1
}

# Compiles with the checks of a debug build: compile TARGET ARGUMENT.. Where vectors are tested, unoptimized code takes
# too long. Debian's i686 target lacks SSE2, which rustc's own i686 target has. Without SSE2 floats are rounded twice.
compile() {
    local processor=() level=0
    case $1 in
    aarch64-* | s390x-*) level=1 ;;
    i686-*) processor=(-C target-cpu=pentium4) ;;
    esac
    "$oldest/bin/rustc" --edition 2021 --target "$1" -L "$(std_of "$1")" --out-dir "$out/$1" -D warnings \
        -C "opt-level=$level" -C debug-assertions "${processor[@]}" "${@:2}"
}

compile_crate() {
    local crate=(--crate-name nanorand_proved --crate-type lib src/lib.rs)
    step compile "$1" "${crate[@]}" --emit metadata &&
        step compile "$1" "${crate[@]}" --cfg 'feature="std"'
}

# Wine 8 lacks Windows' library for random bytes (bcryptprimitives.dll). A stand-in replaces it.
put_library() {
    x86_64-w64-mingw32-gcc -shared -o "$WINEPREFIX/drive_c/windows/system32/bcryptprimitives.dll" \
        tests/targets/process_prng.c
}

# run_program TARGET LINKER RUNNER..
run_program() {
    step compile "$1" -C "linker=$2" --extern "nanorand_proved=$out/$1/libnanorand_proved.rlib" \
        tests/targets/program.rs || return
    case $1 in *windows*)
        if ! timeout 300 "$3" cmd /c exit >/dev/null 2>&1; then
            skip "a program on $1" "Wine does not start here"
            return
        fi
        step put_library
        ;;
    esac
    step timeout 300 "${@:3}" "$(ls "$out/$1"/program{,.exe,.wasm} 2>/dev/null)"
    case $1 in *windows*) timeout 60 wineserver64 -w ;; esac
    case $1 in
    aarch64-* | s390x-*) run_unit_tests src/lib.rs 'simd:: system::' "$@" ;;
    i686-* | armv7-*) run_unit_tests src/system.rs '' "$@" ;;
    esac
}

# run_unit_tests FILE NAMES TARGET LINKER RUNNER..: the unit tests with these names in the file and its modules, without
# one that asks for more memory than qemu may have. The functions of a file alone may be unused.
run_unit_tests() {
    local names=()
    read -ra names <<<"$2"
    step compile "$3" -C "linker=$4" --crate-name unit_tests --test --cfg 'feature="std"' \
        -A dead_code -D unsafe_op_in_unsafe_fn "$1" || return
    cargo_tests timeout 600 env NANORAND_STATES=1000 "${@:5}" "$out/$3/unit_tests" --test-threads=1 "${names[@]}" \
        --skip more_than_4_gibibytes
}

# Compares the numbers of the system call getrandom in system.rs with those in Debian's crate libc.
system_calls() {
    local word number processor processors=() compared=0 libc
    if ! packages libc-0.2.; then
        skip 'the numbers of system calls' "Debian's crate libc is not there"
        return
    fi
    libc=$(echo "$registry"/libc-0.2.*/src/unix/linux_like/linux/gnu)
    while IFS='()"' read -r word number _; do
        case $word in
        Some)
            for processor in "${processors[@]}"; do
                expect "getrandom on $processor" "$(sed -nE 's/^pub const SYS_getrandom: .* = ([0-9]+);/\1/p' \
                    "$libc"/b??/"$processor"{.rs,/mod.rs,/not_x32.rs} 2>/dev/null)" "$number"
                compared=$((compared + 1))
            done
            processors=()
            ;;
        *) processors+=("$number") ;;
        esac
    done < <(sed -n '/const NUMBER:/,/};/p' src/system.rs | grep -oE 'target_arch = "\w+"|Some\([0-9]+\)')
    expect 'processors with a number for getrandom' 8 "$compared"
}

while read -r target linker runner; do
    [ -n "$target" ] || continue
    if ! std_of "$target" >/dev/null; then
        skip "$target" "the oldest compiler has no std of it"
        continue
    fi
    printf '== %s\n' "$target"
    compile_crate "$target" || continue
    read -ra words <<<"$runner"
    if command -v "$linker" >/dev/null && command -v "${words[0]}" >/dev/null; then
        run_program "$target" "$linker" "${words[@]}"
    else
        skip "a program on $target" "there is no $linker or no ${words[0]}"
    fi
done <<<"$targets"
system_calls
finish
