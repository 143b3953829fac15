#!/usr/bin/env bash
# Tests the archive of tools/archive.py: tests/archive.sh. The last line is N passed, M failed.
#
# A second archive must have the same bytes, and each part must be usable from the unpacked archive alone, without the
# kit. The second archive is packed from a copy of the files at another path, with another umask, time zone, locale and
# file times. What rt proves and builds (the static library, the page's module, draw and lots) is copied, not proved
# twice.
#
# shellcheck source=tests/lib.sh
source "$(dirname "${BASH_SOURCE[0]}")/lib.sh"

# The case $1: the command after $2 ends with status 0 and prints the text $2.
prints() {
    local case=$1 wanted=$2 status=0
    shift 2
    "$@" >"$work/printed" 2>"$work/errors" </dev/null || status=$?
    if [ "$status" -ne 0 ]; then
        check "$case" "status $status: $(tail -n 5 "$work/errors")"
    else
        check "$case" "$(printf '%s\n' "$wanted" | diff - "$work/printed" | head -n 5)"
    fi
}

# Copies the committed files, uncommitted changes to them, and what was built here to the path $1, with new file times.
copy_of_tree() {
    local built
    git clone --quiet . "$1" || return
    git diff HEAD --binary | git -C "$1" apply --allow-empty || return
    for built in crates/nanorand_c/out/libnanorand_c.a crates/draw/out/draw crates/lots/out/lots \
        web/dist/nanorand.html web/dist/nanorand_c.wasm; do
        mkdir -p "$1/${built%/*}" && cp "$built" "$1/$built" || return
    done
}

same_again() {
    local copy=$work/another/path/to/nanorand
    if ! copy_of_tree "$copy" >"$work/log" 2>&1 || ! (umask 077 && TZ=Asia/Tokyo LC_ALL=C.UTF-8 \
        LANG=tr_TR.UTF-8 TMPDIR=$work "$copy/tools/archive.py" --pack) >"$work/log" 2>&1; then
        check 'a second archive' "$(tail -n 5 "$work/log")"
        return
    fi
    check 'a second archive' "$(cmp "$archive" "$copy/$archive" 2>&1)"
}

# The archive's entries: one folder, no owner, one time, four kinds and modes, names in order and each once.
entries() {
    TZ=UTC tar --numeric-owner --full-time -tvzf "$archive" >"$work/entries"
    awk '{ print $1, $2, $4, $5 }' "$work/entries" | sort -u >"$work/kinds"
    check 'kinds of entries' "$(diff - "$work/kinds" <<<"$(printf '%s 0/0 2026-01-01 00:00:00\n' \
        -rw-r--r-- -rwxr-xr-x drwxr-xr-x lrwxrwxrwx | sort -u)")"
    awk '$1 == "-rwxr-xr-x" { print $6 }' "$work/entries" >"$work/programs"
    check 'what can be run' "$(diff "$work/programs" <(printf '%s\n' "$name/bin/draw" "$name/bin/lots"))"
    tar -tzf "$archive" | sed 's|/$||' >"$work/names"
    tr / '\1' <"$work/names" | LC_ALL=C sort -u | tr '\1' / >"$work/sorted"
    check 'order of the names' "$(diff "$work/names" "$work/sorted" | head -n 3)"
    check 'one folder' "$(grep -v "^$name\(/\|\$\)" "$work/names" | head -n 3)"
    check 'the head of gzip' "$(head -c 8 "$archive" | cmp - <(printf '\37\213\10\0\0\0\0\0') 2>&1)"
    check 'no path of this machine' "$(LC_ALL=C grep -rlF "$PWD" "$root" | head -n 3)"
}

# SHA256SUMS has the right digest of every file except itself.
digests() {
    check 'SHA256SUMS' "$(cd "$root" && sha256sum --quiet --strict -c SHA256SUMS 2>&1)"
    check 'every file has a digest' "$(diff <(cut -c67- "$root/SHA256SUMS" | sort) \
        <(cd "$root" && find . -type f ! -name SHA256SUMS | cut -c3- | sort))"
}

# Each file in the README's table exists, and the table has each file and folder at the top.
table_of_files() {
    local path
    sed -n 's/^| \(`.*\) | .* |$/\1/p' "$root/README.md" | grep -o '`[^`]*`' | tr -d '`' >"$work/listed"
    check 'a table of files' "$([ "$(wc -l <"$work/listed")" -gt 15 ] || echo 'it has few')"
    check 'the files of the table' \
        "$(while read -r path; do [ -e "$root/$path" ] || echo "$path"; done <"$work/listed")"
    check 'the table of the files' "$(diff <(cut -d / -f 1 "$work/listed" | LC_ALL=C sort -u) \
        <(find "$root" -mindepth 1 -maxdepth 1 ! -name README.md ! -name LICENSE -printf '%P\n' | LC_ALL=C sort))"
}

# The names of the files below the archive's folder, in $work/found, are those in $work/wanted, and so are the bytes.
same_files() {
    local path
    check "the list of $1" "$(diff "$work/wanted" "$work/found" | head -n 5)"
    check "the bytes of $1" "$(while read -r path; do cmp "$path" "$root/$path" 2>&1; done <"$work/wanted" | head -n 5)"
}

# The files are those of the repository.
sources() {
    local pair
    for pair in c/include/nanorand.h:include/nanorand.h tests/answers/answers.tsv:answers/answers.tsv LICENSE:LICENSE \
        c/include/nanorand.hpp:include/nanorand.hpp c/examples/deck.c:c/deck.c c/examples/shuffle.cpp:c/shuffle.cpp \
        crates/nanorand_c/out/libnanorand_c.a:lib/libnanorand.a web/dist/nanorand.html:web/nanorand.html; do
        check "${pair#*:}" "$(cmp "${pair%%:*}" "$root/${pair#*:}" 2>&1)"
    done
    git ls-files Cargo.toml Cargo.lock rust/{nanorand-{answers,proved,program,rand-core},draw,lots} \
        rust/nanorand-drop-in/{Cargo.toml,README.md,src} | sort >"$work/wanted"
    (cd "$root" && find Cargo.* rust -type f | sort) >"$work/found"
    same_files 'the Rust packages'
}

# The shared library: its name, its functions (the header's and no others), what it needs, and no executable stack.
shared_library() {
    local library=$root/lib/libnanorand.so.1
    check 'soname' \
        "$(grep -q 'soname: \[libnanorand.so.1\]' <<<"$(readelf -d "$library")" || echo 'it is another')"
    sed -n 's/^#define nanorand_[a-z].* //p' "$root/include/nanorand.h" | sort >"$work/wanted"
    nm -D --defined-only "$library" | grep -v ' A NANORAND_1$' >"$work/defined"
    awk '{ sub(/@.*/, "", $3); print $3 }' "$work/defined" | sort >"$work/found"
    check 'symbols' "$(diff "$work/wanted" "$work/found" | head -n 5)"
    check 'what it needs' "$(readelf -d "$library" | grep NEEDED | grep -v '\[libc\.so\.6\]')"
    check 'no code on the stack' "$(readelf -lW "$library" | grep GNU_STACK | grep -v 'RW  ')"
}

# The example of the unpacked archive, built with the flags of pkg-config, with the shared and the static library.
c_programs() {
    local flags wanted compiler=(cc -std=c11 -Wall -Wextra -Werror)
    export PKG_CONFIG_PATH=$root/lib/pkgconfig
    wanted=$(cat c/examples/deck.out)
    read -ra flags <<<"$(pkg-config --cflags --libs nanorand)"
    check 'cc, shared' "$("${compiler[@]}" -o "$work/shared" "$root/c/deck.c" "${flags[@]}" 2>&1)"
    prints 'the example, shared' "$wanted" env LD_LIBRARY_PATH="$root/lib" "$work/shared"
    check 'it needs the library' \
        "$(grep -q '\[libnanorand.so.1\]' <<<"$(readelf -d "$work/shared")" || echo 'it does not')"
    read -ra flags <<<"$(pkg-config --cflags nanorand)"
    check 'cc, static' "$("${compiler[@]}" -o "$work/static" "$root/c/deck.c" "${flags[@]}" \
        "$(pkg-config --variable=libdir nanorand)/libnanorand.a" 2>&1)"
    prints 'the example, static' "$wanted" "$work/static"
    prints 'pkg-config, version' "$version" pkg-config --modversion nanorand
    check 'the example is its text' "$(diff "$root/c/deck.out" c/examples/deck.out)"
}

# The example in C++ over the unpacked archive, by CMake.
cmake_program() {
    if ! available cmake cmake c++ g++; then
        skip 'a program by CMake' 'there is no cmake or no c++'
        return
    fi
    mkdir "$work/cmake"
    cp c/examples/CMakeLists.txt "$root/c/shuffle.cpp" "$work/cmake"
    cmake -S "$work/cmake" -B "$work/cmake/build" "-DCMAKE_PREFIX_PATH=$root" >"$work/log" 2>&1 &&
        cmake --build "$work/cmake/build" >>"$work/log" 2>&1 || tail -n 5 "$work/log"
    prints 'the example, by CMake' "$(cat c/examples/shuffle.out)" "$work/cmake/build/shuffle"
}

rust_program() {
    mkdir -p "$work/program/src"
    cat >"$work/program/Cargo.toml" <<END
[package]
name = "program"
version = "0.1.0"
edition = "2021"

[dependencies]
nanorand-proved = { path = "$root/rust/nanorand-proved" }
END
    cat >"$work/program/src/main.rs" <<'END'
use nanorand_proved::{Rng, WyRand};

fn main() {
    println!("{:?}", WyRand::seed_from_u64(42).generate_range(1..=100_u64));
}
END
    export CARGO_HOME=$work/cargo CARGO_TARGET_DIR=$work/target
    prints 'cargo' 'Ok(35)' cargo run --offline --quiet --manifest-path "$work/program/Cargo.toml"
    prints 'the tests of the library' 'good' bash -c 'cd "$1" &&
        cargo test --offline --quiet -p nanorand-proved -p nanorand-answers --test calls --test answers >&2 && echo good' - "$root"
}

python_program() {
    check 'a fresh environment' "$(python3 -m venv "$work/venv" 2>&1 | tail -n 3)"
    check 'pip' "$("$work/venv/bin/pip" install --quiet --disable-pip-version-check --no-index --no-deps \
        "$root"/python/*.whl 2>&1 | tail -n 3)"
    prints 'Python' '35' "$work/venv/bin/python" -I -c \
        'import nanorand; print(nanorand.WyRand.seed_from_u64(42).range(1, 100))'
    check 'pip, from what the archive has' "$(cd "$root" && "$work/venv/bin/pip" install --quiet \
        --disable-pip-version-check --no-index --force-reinstall . 2>&1 | tail -n 3)"
    prints 'Python, of the archive' '35' "$work/venv/bin/python" -I -c \
        'import nanorand; print(nanorand.WyRand.seed_from_u64(42).range(1, 100))'
    git ls-files python/native python/nanorand | sort >"$work/wanted"
    (cd "$root" && find python/native python/nanorand -type f | grep -v __pycache__ | sort) >"$work/found"
    same_files 'the Python package'
}

# The module in the page is the file beside it, whose digest is in SHA256SUMS.
page() {
    grep -oP '<script type="text/plain" id="module">\K[^<]*' "$root/web/nanorand.html" | base64 -d >"$work/module.wasm"
    check 'the module of the page' "$(cmp "$work/module.wasm" "$root/web/nanorand_c.wasm" 2>&1)"
    check 'it is a module' "$(head -c 4 "$work/module.wasm" | cmp - <(printf '\0asm') 2>&1)"
    check 'its digest' "$(grep -q "^$(sha256sum <"$work/module.wasm" | cut -c-64)  web/nanorand_c.wasm\$" \
        "$root/SHA256SUMS" || echo 'it is not in SHA256SUMS')"
    check 'the page loads nothing' "$(grep -oE 'src="?https?:[^" ]*' "$root/web/nanorand.html" | head -n 3)"
}

programs() {
    local entrants
    prints 'draw' '16646288086500911322' "$root/bin/draw" wyrand d29b42879be2895f plain 0 u64
    prints 'draw, buffered' $'218\n40\n41140' "$root/bin/draw" wyrand d29b42879be2895f buffered 0 u8 u8 u16
    entrants=$(printf '%s\n' Ada Barbara Chidi Dmitri Elif Farid Grace Hedy Ines Jun Katherine Lise)
    prints 'lots' $'Katherine\nJun\nChidi' bash -c \
        'printf "%s\n" "$2" | "$1" "4 1 6 3 3 2 5 6 1 4 2 6 5 3 1 1 6 2 4 5" 3' - "$root/bin/lots" "$entrants"
}

for command in cc:gcc pkg-config:pkg-config cargo:cargo; do
    available "${command%:*}" "${command#*:}" || skip_all 'the archive' "there is no ${command%:*}"
done
can_build python3 || skip_all 'the archive' 'python3 has no venv or no Python.h'
if ! command -v rt >/dev/null; then
    skip_all 'the archive' 'there is no kit to build it'
fi
step tests/build.sh library page draw lots && step tools/archive.py --pack || finish
archive=$(tail -n 1 "$work/log" | cut -d ' ' -f 3)
name=$(basename "$archive" .tar.gz)
version=${name%-x86_64-linux}
version=${version#nanorand-}
PATH=$(path_without_kit)
step tar -C "$work" -xzf "$archive" || finish
root=$work/$name
same_again
entries
digests
table_of_files
sources
shared_library
c_programs
cmake_program
rust_program
python_program
page
programs
finish
