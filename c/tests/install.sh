#!/usr/bin/env bash
# Tests c/install: c/tests/install.sh. The last line is N passed, M failed.
#
# COMPILED may name the library that rustc compiled here for c/install, so that it is not compiled again.
#
# The PATH of the build has only the build's tools, so neither the kit nor Python. The installed libraries must have the
# header's functions and no others, programs are built with the flags of pkg-config, and another folder must produce the
# same bytes.
# shellcheck source=tests/lib.sh
source "$(dirname "${BASH_SOURCE[0]}")/../../tests/lib.sh"
root=$work/'a prefix'

# Puts the tools of the build into a folder of their own.
tools() {
    local tool
    mkdir "$work/bin"
    for tool in rustc cc ld ar objcopy bash dirname realpath mktemp mkdir sed rm ln install; do
        ln -s "$(command -v "$tool")" "$work/bin/"
    done
    # In place of rustc, for what does not depend on how it compiles.
    rustc_once "$work/bin/given"
    [ -z "${COMPILED:-}" ] || cp "$COMPILED" "$work/bin/given.a"
}

# Runs c/install in the folder $1, with the variables that follow.
install_from() {
    env PATH="$work/bin" "${@:2}" "$1/c/install" 2>&1
}

# The files below the folder $1, with their modes and the targets of links.
files() {
    (cd "$1" && find . ! -type d -printf '%P %m %l\n' | sort)
}

installed_files() {
    cat >"$work/wanted" <<'END'
include/nanorand.h 644 
include/nanorand.hpp 644 
lib/cmake/nanorand/nanorand-config-version.cmake 644 
lib/cmake/nanorand/nanorand-config.cmake 644 
lib/libnanorand.a 644 
lib/libnanorand.so 777 libnanorand.so.1
lib/libnanorand.so.1 644 
lib/pkgconfig/nanorand.pc 644 
END
    check 'the files' "$(files "$root" | diff - "$work/wanted")"
    check 'the header' "$(cmp c/include/nanorand.h "$root/include/nanorand.h" 2>&1)"
    check 'the header of C++' "$(cmp c/include/nanorand.hpp "$root/include/nanorand.hpp" 2>&1)"
    check 'the file for pkg-config' \
        "$(grep -v '^Version: ' "$root/lib/pkgconfig/nanorand.pc" | diff - <(grep -v '^Version: ' c/nanorand.pc.in))"
    check 'the file for CMake' \
        "$(cmp c/nanorand-config.cmake "$root/lib/cmake/nanorand/nanorand-config.cmake" 2>&1)"
}

# The symbols in nm's lines, without the version of the interface.
symbols() {
    awk '$(NF - 1) != "A" { sub(/@.*/, "", $NF); print $NF }' | sort
}

# Both libraries have the header's functions and no others. They need only functions that every C library has.
libraries() {
    local archive=$root/lib/libnanorand.a shared=$root/lib/libnanorand.so.1
    sed -n 's/^#define nanorand_.* \(nanorand_v1_\)/\1/p' c/include/nanorand.h | sort >"$work/names"
    check 'names' "$([ "$(wc -l <"$work/names")" -gt 70 ] || echo 'the header has few')"
    check 'the symbols of the archive' "$(nm -g --defined-only "$archive" | grep ' ' | symbols | diff - "$work/names")"
    check 'the symbols of the shared library' "$(nm -D --defined-only "$shared" | symbols | diff - "$work/names")"
    check 'their version' "$(nm -D --with-symbol-versions --defined-only "$shared" | grep -v '@@NANORAND_1$\| A NANORAND_1$')"
    check 'what the archive needs' "$(nm -u "$archive" | grep ' U ' | grep -vE ' (abort|mem(cpy|move|set|cmp)|bcmp)$')"
    check 'a panic ends the process' "$(nm -u "$archive" | grep ' U abort$' >/dev/null || echo 'nothing calls abort')"
    check 'what the shared library needs' "$(readelf -d "$shared" | grep NEEDED | grep -v '\[libc\.so\.6\]')"
    check 'soname' \
        "$(readelf -d "$shared" | grep -q 'soname: \[libnanorand.so.1\]' || echo 'it is another')"
    check 'no other names' "$(readelf -SW "$shared" | grep -F .symtab)"
    check 'the shared library on every processor' "$(runs_on_every_processor "$shared" >"$work/found" || cat "$work/found")"
    check 'the archive on every processor' "$(runs_on_every_processor "$archive" >"$work/found" || cat "$work/found")"
    readelf -lW "$shared" >"$work/segments"
    check 'no code on the stack' "$(grep -q ' GNU_STACK .* RW  ' "$work/segments" || echo 'it may have some')"
    check 'no code that can be changed' "$(grep ' RWE ' "$work/segments")"
    # So nobody can change later which functions it calls.
    readelf -d "$shared" >"$work/dynamic"
    check 'addresses are found when it is loaded' "$(grep -q '(FLAGS).* BIND_NOW' "$work/dynamic" || echo 'they are not')"
    check 'they are read-only then' "$(grep -q ' GNU_RELRO ' "$work/segments" || echo 'they are not')"
    check 'no path of this machine' "$(grep -rlF -e "$PWD" -e "$work" "$root")"
}

# The archive has an object for each generator, the draw by lot and the version. The global symbols of an object are its
# own exports: those whose names begin with its name. A program gets only the objects that it calls.
members() {
    local archive=$root/lib/libnanorand.a member bytes
    ar t "$archive" >"$work/members"
    check 'the members' "$(sed -E 's/^nanorand_v1_([a-z0-9]+).*/\1.o/' "$work/names" | LC_ALL=C sort -u |
        diff - <(LC_ALL=C sort "$work/members"))"
    mkdir "$work/objects"
    (cd "$work/objects" && ar x "$archive")
    while read -r member; do
        check "the symbols of $member" "$(nm -g --defined-only "$work/objects/$member" | grep ' ' | symbols |
            diff - <(grep -E "^nanorand_v1_${member%.o}(_|\$)" "$work/names"))"
        check "no code on the stack: $member" "$(readelf -SW "$work/objects/$member" >"$work/sections"
            grep -q ' \.note\.GNU-stack .* 00  *0  *0  *1$' "$work/sections" || echo 'it may have some')"
    done <"$work/members"
    printf 'int main(void) { return 0; }\n' >"$work/empty.c"
    printf '#include "nanorand.h"\nint main(void) { nanorand_wyrand rng = { 1 }; return (int)nanorand_wyrand_u64(&rng); }\n' \
        >"$work/one.c"
    cc -O2 -o "$work/empty" "$work/empty.c"
    cc -O2 "-I$root/include" -o "$work/one" "$work/one.c" "$archive"
    bytes=$(($(code_of "$work/one") - $(code_of "$work/empty")))
    check 'a program with one call' "$([ "$bytes" -le 10240 ] || echo "it has $bytes bytes more than an empty program")"
}

# The number of bytes of a program's code and constants.
code_of() {
    size "$1" | awk 'NR == 2 { print $1 }'
}

# Programs fill bytes in the same way on processors with AVX2, without it, without AVX, and on one whose system does not
# save the vectors of AVX. Where a processor lacks an instruction, it ends the program.
processors() {
    local library processor
    if ! available qemu-x86_64 qemu-user; then
        skip 'processors with and without AVX2' 'there is no qemu-x86_64'
        return
    fi
    for library in libnanorand.a libnanorand.so.1; do
        cc -std=c11 "-I$root/include" -o "$work/fills" c/tests/fills.c "$root/lib/$library" "-Wl,-rpath,$root/lib"
        "$work/fills" >"$work/fills.out"
        check "$library: one stream" "$(grep 'stream$' "$work/fills.out" | cut -d ' ' -f 1 | uniq -c |
            grep -qx ' *2 [0-9a-f]\{64\}' || cat "$work/fills.out")"
        for processor in max max,-avx2 max,-avx max,-xsave Nehalem; do
            check "$library on the processor $processor" \
                "$(qemu-x86_64 -cpu "$processor" "$work/fills" 2>&1 | diff - "$work/fills.out")"
        done
    done
}

# Builds the example as the program $1, with the flags that follow and those of pkg-config, and compares what it prints.
# pkg-config's output is quoted for a shell.
example() {
    local program=$work/$1 flags
    shift
    eval "flags=($(pkg-config --cflags nanorand))"
    if cc -std=c11 -Wall -Wextra -pedantic -Werror "${flags[@]}" -o "$program" c/examples/deck.c "$@" 2>"$work/errors"; then
        check "${program##*/}" "$({ "$program" 2>&1 || echo "it ended with status $?"; } | diff - c/examples/deck.out)"
    else
        check "${program##*/}" "$(head -n 5 "$work/errors")"
    fi
}

# Makes CMake forget all but what it found out about the compiler, and removes the program.
begins_anew() {
    rm -f "$1"/build/{CMakeCache.txt,shuffle}
}

# Builds the example in the folder $1 by CMake with the arguments that follow, and compares what it prints without
# LD_LIBRARY_PATH.
by_cmake() {
    begins_anew "$1"
    cmake -S "$1" -B "$1/build" "${@:2}" >"$work/errors" 2>&1 && cmake --build "$1/build" >>"$work/errors" 2>&1 ||
        cat "$work/errors"
    check "CMake: ${*:2}" "$(env -u LD_LIBRARY_PATH "$1/build/shuffle" 2>&1 | diff - c/examples/shuffle.out)"
}

# The library is found if lib is a link to that of another installation, and if it is one out of its own installation.
linked_folders() {
    mkdir "$work/linked" "$work/moved"
    ln -s "$root/lib" "$work/linked/lib"
    by_cmake "$1" "-DCMAKE_PREFIX_PATH=$work/linked"
    cp -a "$root/lib" "$work/moved/elsewhere"
    mkdir "$work/moved/usr"
    ln -s ../elsewhere "$work/moved/usr/lib"
    cp -a "$root/include" "$work/moved/usr"
    by_cmake "$1" "-DCMAKE_PREFIX_PATH=$work/moved/usr"
}

# Fails if CMake accepts the version $2 of the library for the project in the folder $1.
refuses_version() {
    begins_anew "$1"
    sed -i "s/find_package(nanorand 1.0 /find_package(nanorand $2 /" "$1/CMakeLists.txt"
    check "CMake: version $2" \
        "$(cmake -S "$1" -B "$1/build" "-DCMAKE_PREFIX_PATH=$root" >/dev/null 2>&1 && echo 'it is accepted')"
    sed -i "s/find_package(nanorand $2 /find_package(nanorand 1.0 /" "$1/CMakeLists.txt"
}

# The program of the project in the folder $1, installed as c/README.md says, finds the shared library.
installed_by_cmake() {
    echo 'install(TARGETS shuffle)' >>"$1/CMakeLists.txt"
    by_cmake "$1" "-DCMAKE_PREFIX_PATH=$root" -DCMAKE_INSTALL_RPATH_USE_LINK_PATH=ON
    cmake --install "$1/build" --prefix "$work/with cmake" >"$work/errors" 2>&1 || cat "$work/errors"
    check 'CMake: an installed program' \
        "$(env -u LD_LIBRARY_PATH "$work/with cmake/bin/shuffle" 2>&1 | diff - c/examples/shuffle.out)"
}

# A program in C++, with the flags of pkg-config alone, and the same program by CMake: as c/README.md says it, the folder
# is in CMAKE_PREFIX_PATH or PKG_CONFIG_PATH, and the library is static or shared.
programs_in_cpp() {
    local flags
    if ! available c++ g++; then
        skip 'programs in C++ by the installed library' 'there is no c++'
        return
    fi
    eval "flags=($(pkg-config --cflags --libs nanorand))"
    c++ -std=c++17 -Wall -Wextra -pedantic -Werror -o "$work/shuffle" c/examples/shuffle.cpp "${flags[@]}" 2>"$work/errors"
    check 'C++' "$(head -n 5 "$work/errors"; "$work/shuffle" 2>&1 | diff - c/examples/shuffle.out)"
    if ! available cmake cmake; then
        skip 'a program by CMake' 'there is no cmake'
        return
    fi
    mkdir "$work/cmake"
    cp c/examples/{CMakeLists.txt,shuffle.cpp} "$work/cmake"
    by_cmake "$work/cmake" "-DCMAKE_PREFIX_PATH=$root"
    check 'the static library by CMake' "$(readelf -d "$work/cmake/build/shuffle" | grep libnanorand)"
    linked_folders "$work/cmake"
    sizes_of_pointers
    variables_by_cmake
    refuses_version "$work/cmake" 0.99
    refuses_version "$work/cmake" 1.99
    refuses_version "$work/cmake" 2
    sed -i 's/nanorand::static/nanorand::shared/' "$work/cmake/CMakeLists.txt"
    (export CMAKE_PREFIX_PATH=$root && by_cmake "$work/cmake")
    installed_by_cmake "$work/cmake"
    sed -i '/nanorand 1.0\|nanorand::shared/d' "$work/cmake/CMakeLists.txt"
    sed -n '/^find_package(PkgConfig/,/^```/p' c/README.md | sed '$d' >>"$work/cmake/CMakeLists.txt"
    by_cmake "$work/cmake"
}

# The shared library by Python's ctypes.
other_languages() {
    if ! available python3 python3; then
        skip 'the library from ctypes' 'there is no python3'
        return
    fi
    check 'ctypes' "$(python3 c/examples/dice.py 2>&1 | diff - c/examples/roll.out)"
}

programs() {
    local flags folder version
    if ! available pkg-config pkg-config; then
        skip 'programs by the installed library' 'there is no pkg-config'
        return
    fi
    export PKG_CONFIG_PATH=$root/lib/pkgconfig LD_LIBRARY_PATH=$root/lib
    eval "flags=($(pkg-config --libs nanorand))"
    example shared "${flags[@]}"
    check 'it needs the library' \
        "$(readelf -d "$work/shared" | grep -q '\[libnanorand.so.1\]' || echo 'it does not')"
    programs_in_cpp
    other_languages
    unset LD_LIBRARY_PATH
    eval "folder=$(pkg-config --variable=libdir nanorand)"
    example static "$folder/libnanorand.a"
    example 'wholly static' -static "${flags[@]}"
    version=$(awk '$2 == "NANORAND_VERSION" { print $3 }' c/include/nanorand.h)
    check 'the version of the package' "$(pkg-config --modversion nanorand |
        awk -F. '{ print 10000 * $1 + 100 * $2 + $3 }' | diff - <(echo "$version"))"
}

# A build from a copy of the files in another folder, with another umask and time zone, DESTDIR and a relative PREFIX,
# installs the same files.
another_folder() {
    local copy=$work/'another folder/of it'
    mkdir -p "$copy" "$work/here"
    git ls-files -z --cached --others --exclude-standard rust c include | xargs -0 cp --parents -t "$copy"
    check 'another build' "$(cd "$work/here" && umask 077 &&
        install_from '../another folder/of it' PREFIX=usr DESTDIR=destination TZ=Asia/Kolkata)"
    check 'equal bytes' "$(diff -r "$root" "$work/here/destination$work/here/usr" 2>&1)"
    check 'the same files' "$(files "$work/here/destination$work/here/usr" | diff - <(files "$root"))"
}

# CMake accepts the library for a project of this size of pointers, or of none, and not for other sizes.
sizes_of_pointers() {
    local size found
    cat >"$work/pointers.cmake" <<'END'
set(PACKAGE_FIND_VERSION 1.0)
set(PACKAGE_FIND_VERSION_MAJOR 1)
include("${PREFIX}/lib/cmake/nanorand/nanorand-config-version.cmake")
message(STATUS "compatible ${PACKAGE_VERSION_COMPATIBLE}, unsuitable ${PACKAGE_VERSION_UNSUITABLE}")
END
    for size in '' 8 4 16; do
        found=$(cmake "-DCMAKE_SIZEOF_VOID_P=$size" "-DPREFIX=$root" -P "$work/pointers.cmake" 2>&1)
        expect "CMake: pointers of '$size' bytes" \
            "-- compatible TRUE, unsuitable $([ "${size:-8}" -eq 8 ] || echo TRUE)" "$found"
    done
}

# The package leaves a project no variables but those that find_package itself sets, whose names begin so.
variables_by_cmake() {
    mkdir "$work/variables"
    cat >"$work/variables/CMakeLists.txt" <<'END'
cmake_minimum_required(VERSION 3.13)
project(variables LANGUAGES NONE)
set(before "")
get_cmake_property(before VARIABLES)
find_package(nanorand 1.0 REQUIRED)
get_cmake_property(after VARIABLES)
list(REMOVE_ITEM after ${before})
list(FILTER after EXCLUDE REGEX "^nanorand_(CONFIG|CONSIDERED_|DIR|FOUND|VERSION)")
message(STATUS "left: ${after}")
END
    expect 'CMake: variables' '-- left: ' "$(cmake -S "$work/variables" -B "$work/variables/build" \
        "-DCMAKE_PREFIX_PATH=$root" 2>&1 | grep 'left\|Error')"
}

# Prints a line for each version that follows: the version, whether find_package of CMake accepts the library below the
# folder $1 for it, and the version of that library. A further line says so if CMake fails: a project may look for the
# library more than once.
found_by_cmake() {
    mkdir -p "$work/versions"
    cat >"$work/versions/CMakeLists.txt" <<'END'
cmake_minimum_required(VERSION 3.13)
project(versions LANGUAGES NONE)
foreach(wanted IN LISTS WANTED)
    string(REPLACE "-" ";" arguments ${wanted})
    unset(nanorand_DIR CACHE)
    unset(nanorand_VERSION)
    find_package(nanorand ${arguments} QUIET CONFIG NO_DEFAULT_PATH PATHS "${PREFIX}")
    message(STATUS "${wanted} ${nanorand_FOUND} ${nanorand_VERSION}")
endforeach()
END
    cmake -S "$work/versions" -B "$work/versions/build" "-DPREFIX=$1" "-DWANTED=$(IFS=';' && echo "${*:2}")" \
        >"$work/errors" 2>&1 || echo "failed: $(grep -m 1 -A 3 '^CMake Error' "$work/errors")"
    sed -n 's/^-- \([0-9].*\)/\1/p' "$work/errors"
}

# Another release, whose numbers all have two digits, says its version. CMake accepts this version and older ones with
# the same first number, and no others.
another_version() {
    local copy=$work/'another folder/of it' prefix=$work/versioned wanted
    local accepted=(12 12.0 12.0.0 12.9 12.33.99 12.34 12.34.6 12.34.55 12.34.56 12.34.56-EXACT)
    local refused=(0 0.9 1 1.2 1.2.3 2.34.56 11 11.34.56 11.99.99 12.34-EXACT 12.34.55-EXACT 12.34.57 12.34.560 12.35 12.100
        13 13.0.0 13.34.56 34 120.34.56 123456)
    sed -i 's/^#define NANORAND_VERSION .*/#define NANORAND_VERSION 123456/' "$copy/c/include/nanorand.h"
    check 'version 12.34.56' "$(install_from "$copy" PREFIX="$prefix" RUSTC=given)"
    expect 'its version for pkg-config' 'Version: 12.34.56' "$(grep '^Version' "$prefix/lib/pkgconfig/nanorand.pc")"
    if available pkg-config pkg-config; then
        expect 'pkg-config' 12.34.56 "$(PKG_CONFIG_PATH=$prefix/lib/pkgconfig pkg-config --modversion nanorand)"
    fi
    if ! available cmake cmake; then
        skip 'the versions that CMake accepts' 'there is no cmake'
        return
    fi
    found_by_cmake "$prefix" "${accepted[@]}" "${refused[@]}" >"$work/found"
    check 'CMake: found again' "$(sed -n '/^failed: /,/^[0-9]/p' "$work/found")"
    for wanted in "${accepted[@]}"; do
        check "CMake: version $wanted of 12.34.56" "$(grep -qFx "$wanted 1 12.34.56" "$work/found" || echo 'it is refused')"
    done
    for wanted in "${refused[@]}"; do
        check "CMake: version $wanted of 12.34.56" "$(grep -qFx "$wanted 0 " "$work/found" || echo 'it is accepted')"
    done
}

# Installing over another release replaces every file and the link. Without PREFIX, the files are below /usr/local. CC
# may have options: this one leaves the libraries as they are.
over_an_older_one() {
    local file other=$work/options/usr/local
    mkdir -p "$work/options/usr"
    cp -a "$root" "$other"
    for file in include/nanorand.h{,pp} lib/libnanorand.{a,so.1} lib/pkgconfig/nanorand.pc \
        lib/cmake/nanorand/nanorand-config{,-version}.cmake; do
        echo older >"$other/$file"
    done
    ln -sf libnanorand.so.0 "$other/lib/libnanorand.so"
    check 'over another, CC with options' "$(unset PREFIX && install_from . DESTDIR="$work/options" CC='cc -pipe' RUSTC=given)"
    check 'the same files' "$(files "$other" | diff - <(files "$root"))"
    check 'the same bytes' "$(diff -r --no-dereference "$root" "$other" 2>&1)"
    check 'CC has to be there' \
        "$(install_from . PREFIX="$work/options" CC='no_such_cc -pipe' RUSTC=given >/dev/null && echo 'no error')"
}

# CDPATH does not lead c/install into another folder that has c/.
misleading_folder() {
    mkdir -p "$work/misleading/c"
    check 'CDPATH' "$(env PATH="$work/bin" CDPATH="$work/misleading" PREFIX="$work/options" RUSTC=given c/install 2>&1)"
}

# Nothing stays in the folder of temporary files, whether the build succeeds or a tool fails.
no_temporary_files() {
    local compiler
    mkdir "$work/temporary"
    for compiler in given false; do
        install_from . TMPDIR="$work/temporary" PREFIX="$work/options" RUSTC="$compiler" >/dev/null
        check "temporary files, RUSTC=$compiler" "$(ls "$work/temporary")"
    done
}

# If a tool fails, nothing is installed, nor if there are arguments, such as --prefix.
failures() {
    local tool compiler=rustc
    check 'an argument' "$(PREFIX=$work/nothing c/install --prefix="$work/nothing" >/dev/null 2>&1 && echo 'it is ignored')"
    for tool in rustc objcopy cc; do
        mv "$work/bin/$tool" "$work/tool"
        ln -s "$(command -v false)" "$work/bin/$tool"
        check "$tool fails" "$(install_from . PREFIX="$work/nothing" RUSTC="$compiler" >/dev/null && echo 'it is not seen')"
        mv "$work/tool" "$work/bin/$tool"
        compiler=given
    done
    check 'nothing is installed' "$(ls "$work/nothing" 2>/dev/null)"
}

tools
check 'c/install' "$(install_from . PREFIX="$root" RUSTC=given)"
installed_files
libraries
members
processors
programs
another_folder
another_version
over_an_older_one
misleading_folder
no_temporary_files
failures
finish
