#!/usr/bin/env bash
# Tests the C interface of two libraries: the one that c/install builds and, if the kit is there, the proved one, which
# is proved and built first.
#
#     tests/c.sh          tests both
#     tests/c.sh kit      tests only what is linked with the proved library
#     tests/c.sh cargo    tests everything else
#
# The header must declare the exports and the archives' symbols. With four compilers, and warnings as errors, the header
# compiles alone and warns of mistakes, and structs have the declared layout in memory. The table of known answers, the
# edge cases, the classes of C++ and the examples are compiled once and linked with both libraries. With further
# standards the tests and the examples only have to compile, and so does the benchmark. One compiler of each language
# has its sanitizers look at the tests. Then come two releases in one program, what c/install installs, the crate of the
# exports, and a check that the tests run all its code. The last line is N passed, M failed.
# shellcheck source=tests/lib.sh
source "$(dirname "${BASH_SOURCE[0]}")/lib.sh"
# The static library that each of cargo and kit built.
declare -A archives=()
warnings=(-Wall -Wextra -pedantic -Werror)
# Each compiler and the standards to test. All tests are run with the first standard, some with the others.
standards=('gcc c99 c11 c17' 'clang c99 c11 c17' 'g++ c++11 c++17 c++20' 'clang++ c++11 c++17 c++20')
# The warnings that nanorand.hpp is free of.
class_warnings=(-Wshadow -Wconversion -Wsign-conversion -Wold-style-cast)
sanitizers=(-g1 '-fsanitize=address,undefined' -fno-sanitize-recover=all)
# The tests of the interface of C. In C, all of them are optimized except the first.
sources=(c/tests/{layout,edges,guards,numbers,items}.c)
# The great sizes of edges.c, which depend on the library alone, are tested with the first compiler.
sizes=()

# Builds and installs the library with rustc and cc.
by_cargo() {
    rustc_once "$work/once"
    if ! available cc gcc rustc rustc cargo cargo; then
        skip 'the C interface of the library by cargo' 'there is no cc, rustc or cargo'
    elif RUSTC=$work/once PREFIX=$work/installed c/install >"$work/log" 2>&1; then
        archives[cargo]=$work/installed/lib/libnanorand.a
    else
        check 'c/install' "it failed: $(cat "$work/log")"
    fi
}

# Builds the proved library, if the kit is there.
by_the_kit() {
    if ! command -v rt >/dev/null; then
        skip 'the C interface of the proved library' 'there is no kit'
    elif tests/build.sh library >"$work/log" 2>&1; then
        archives[kit]=$PWD/crates/nanorand_c/out/libnanorand_c.a
    else
        check 'the proved library' "it failed: $(cat "$work/log")"
    fi
}

# How compilers find the header. In a system folder, as below /usr/local, gcc reports nothing about macros.
included=-I

# Compiles with the compiler and the standard in $1, such as 'gcc c99'. The rest are files and flags.
compile() {
    local words=$1 language=c
    shift
    set -- "${words#* }" "$@"
    [[ $1 == c++* ]] && language=c++
    "${words%% *}" -x "$language" "-std=$1" "${warnings[@]}" "${@:2}" "$included" c/include -Ic/tests \
        2>"$work/errors"
}

# What the last compiler that failed said, which may be nothing.
said() {
    printf 'it failed: %s\n' "$(head -n 5 "$work/errors")"
}

# Compiles the source $2 as $1 says, with the flags that follow, and links it with each library. The program has the
# name of its library.
build() {
    local words=$1 source=$2 library
    shift 2
    compile "$words" "$@" -c -o "$work/program.o" "$source" || return
    for library in "${!archives[@]}"; do
        "${words%% *}" "$@" -o "$work/$library" "$work/program.o" "${archives[$library]}" \
            2>"$work/errors" || return
    done
}

# Builds the source $2 as $1 says, with the flags that follow, and runs its tests.
tests_of() {
    local library name="$1 ${2##*/} ${*:3}"
    if ! build "$@"; then
        check "$name" "$(said)"
        return
    fi
    for library in "${!archives[@]}"; do
        quiet_part "$name, $library" "$work/$library"
    done
}

# The program of the source $2, built as $1 says with the flags from $4 on, prints the content of the file $3.
prints() {
    local library
    if ! build "$1" "$2" "${@:4}"; then
        check "$1 ${2##*/}" "$(said)"
        return
    fi
    for library in "${!archives[@]}"; do
        check "$1 ${2##*/}, $library" \
            "$({ "$work/$library" 2>&1 || echo "it ended with status $?"; } | diff - "$3")"
    done
}

# All tests with one compiler; $1 is its name and its standards.
compiler() {
    local name=${1%% *} package standard first source optimized=(-O2)
    package=${name/clang++/clang}
    if ! available "$name" "$package"; then
        skip "the C interface by $name" 'it is not there'
        return
    fi
    read -r _ first _ <<<"$1"
    prints "$name $first" c/tests/alone.c /dev/null
    prints "$name $first" c/examples/roll.c c/examples/roll.out
    prints "$name $first" c/examples/deck.c c/examples/deck.out
    for standard in ${1#* }; do
        [ "$standard" = "$first" ] ||
            compiles "$name $standard" c/tests/{alone,answers}.c c/examples/{roll,deck}.c "${sources[@]}"
    done
    [[ $first != c++* ]] || optimized=()
    tests_of "$name $first" c/tests/layout.c
    for source in "${sources[@]:1}"; do
        tests_of "$name $first" "$source" "${optimized[@]}" "${sizes[@]}"
    done
    sizes=(-DFEW)
    answers_of "$name $first"
    ! asked_for cargo || warnings_of "$name $first"
    if [[ $first == c++* ]]; then
        classes "$name"
    elif looks_for_errors "$name $first"; then
        sanitized "$name $first"
    fi
}

# Whether the tests are to run with the sanitizers of the compiler in $1: clang's, and gcc's if there is no clang.
looks_for_errors() {
    { [[ $1 == clang* ]] || ! available clang clang >/dev/null; } && has_sanitizers "$1"
}

# The compiler and the standard in $1 have no warnings about the sources and flags that follow.
compiles() {
    check "$1 compiles ${*:2}" \
        "$(compile "$1" -fsyntax-only "${@:2}" || said)"
}

# The table of known answers, as `tests_of` for $1 and flags. The program counts every row.
answers_of() {
    tests_of "$1" c/tests/answers.c "${@:2}"
    [ ${#archives[@]} -eq 0 ] ||
        expect "$1, every row" "$rows" "$(tail -n 1 "$work/log" | awk '{ print $1 + $3 }')"
}

# The classes of C++, with the compiler $1: all tests as C++17, with sanitizers, or as C++20 without them; the other of
# the two only has to compile, and so does an example as C++23.
classes() {
    local flags=("${class_warnings[@]}") sanitized=() run=c++20 other=c++17
    [ "$1" != g++ ] || flags+=(-Wuseless-cast)
    ! looks_for_errors "$1 c++17" || sanitized=("${sanitizers[@]}") run=c++17 other=c++20
    prints "$1 c++17" c/examples/shuffle.cpp c/examples/shuffle.out
    prints "$1 c++17" c/examples/threads.cpp c/examples/threads.out -pthread
    tests_of "$1 $run" c/tests/cpp.cpp "${flags[@]}" "${sanitized[@]}"
    tests_of "$1 $run" c/tests/lengths.cpp "${flags[@]}" "${sanitized[@]}"
    compiles "$1 $other" c/tests/{cpp,lengths}.cpp "${flags[@]}"
    compiles "$1 c++2b" c/examples/shuffle.cpp
    ! asked_for cargo || header_of_classes "$1 c++17"
    ! asked_for cargo || warnings_of_classes "$1 c++17"
}

# The header alone compiles to no function that two files of a program would both define, and leaves no macro of its own.
header_of_classes() {
    check "$1: nanorand.hpp alone" \
        "$(compile "$1" -c -o "$work/classes.o" c/include/nanorand.hpp || echo "it failed: $(head -n 5 "$work/errors")")"
    check "$1: inline functions only" "$(nm "$work/classes.o" | grep ' [BDRT] ')"
    check "$1: macros of nanorand.hpp" \
        "$(compile "$1" -E -dM -o - c/include/nanorand.hpp | grep NANORAND_CALL)"
}

# Whether the compiler in $1 has sanitizers. If not, says so.
has_sanitizers() {
    printf 'int main(void) { return 0; }\n' >"$work/empty.c"
    if ! compile "$1" "${sanitizers[@]}" -o "$work/empty" "$work/empty.c" || ! "$work/empty"; then
        skip "the sanitizers of ${1%% *}" 'they are not there'
        return 1
    fi
}

# The tests of C with sanitizers. As C++, which has the same sanitizers, only the classes are tested with them.
sanitized() {
    local source
    for source in "${sources[@]}"; do
        tests_of "$1" "$source" "${sanitizers[@]}" "${sizes[@]}"
    done
    answers_of "$1" "${sanitizers[@]}"
}

# Writes a function in C with these statements, each in a line of its own. The first has the number 6.
statements() {
    cat <<'END'
#include "nanorand.h"
void run(nanorand_pcg64 *rng, nanorand_chacha *state, size_t *items, uint8_t *text);
void run(nanorand_pcg64 *rng, nanorand_chacha *state, size_t *items, uint8_t *text)
{
    (void)rng, (void)state, (void)items, (void)text;
END
    printf '    %s\n' "$@" '}'
}

# The same in C++, where $work/classes.hpp is included.
statements_in_cpp() {
    cat <<'END'

void run(nanorand::WyRand& rng, nanorand::Stream& stream, std::vector<int>& items);
void run(nanorand::WyRand& rng, nanorand::Stream& stream, std::vector<int>& items)
{
    (void)rng, (void)stream, (void)items;
END
    printf '    %s\n' "$@" '}'
}

# The compiler in $1 warns of each of the statements from $3 on, which $work/warns.c has, with the text $2, and of
# nothing else. If $2 is empty, it has no warnings.
warned() {
    local line=6 statement
    if [ -z "$2" ]; then
        check "$1: no warnings" "$(compile "$1" "${also[@]}" -c -o "$work/warns.o" "$work/warns.c" || said)"
        return
    fi
    check "$1: $2" "$(compile "$1" "${also[@]}" -Wno-error -c -o "$work/warns.o" "$work/warns.c" || said)"
    for statement in "${@:3}"; do
        check "$1: $statement" \
            "$(grep -q "warns\.c:$line:.* warning: .*$2" "$work/errors" || echo 'the compiler does not warn')"
        line=$((line + 1))
    done
    expect "$1: all warnings" $(($# - 2)) "$(grep -c 'warning:' "$work/errors")"
}

# The same for statements in C, also if the header is in a system folder.
warns() {
    local included also=()
    statements "${@:3}" >"$work/warns.c"
    for included in -I -isystem; do
        warned "$@"
    done
}

# Puts what is before and after each of the texts from $3 on into the list `calls`.
calls_of() {
    calls=("${@:3}")
    calls=("${calls[@]/#/$1}")
    calls=("${calls[@]/%/$2}")
}

# The compiler warns of a null pointer to a state, a number or a block, and of a status that is not read. It does not
# warn of a null pointer to an empty array.
warnings_of() {
    local calls returned='if (nanorand_' read=' != 0) { return; }'
    calls_of nanorand_ ';' 'pcg64_u64(NULL)' 'pcg64_f64(NULL)' 'pcg64_below(NULL, 6)' \
        'pcg64_fill_bytes(NULL, text, 1)' 'pcg64_jump(rng, NULL)' 'chacha8_block(state, NULL)' \
        'stream_new_key(NULL, text)' 'chacha_new_key(text, NULL)' 'lots_digest(text, 1, NULL)'
    warns "$1" nonnull "${calls[@]}"
    calls_of "$returned" "$read" 'pcg64_range_usize(rng, 1, 6, NULL)' 'pcg64_shuffle(NULL, items, 1)' \
        'pcg64_shuffle_items(NULL, text, 1, 1)' 'pcg64_shuffle_bytes(NULL, text, 1, 1)' 'pcg64_part(NULL, 1, 1)' \
        'pcg64_distance(rng, NULL, rng)' 'lots_count(text, 1, NULL)'
    warns "$1" nonnull "${calls[@]}"
    calls_of nanorand_ ';' 'pcg64_range_usize(rng, 1, 6, items)' 'pcg64_shuffle(rng, items, 1)' \
        'pcg64_shuffle_items(rng, text, 1, 1)' 'pcg64_shuffle_bytes(rng, text, 1, 1)' \
        'pcg64_sample(rng, 1, items, 1)' 'pcg64_part(rng, 1, 1)' 'pcg64_distance(rng, rng, rng)' \
        'lots_count(text, 1, items)' 'lots_draw(text, 1, items, 1, 1)'
    warns "$1" unused-result "${calls[@]}"
    calls_of "$returned" "$read" 'pcg64_shuffle(rng, NULL, 0)' 'pcg64_shuffle_items(rng, NULL, 0, 8)' \
        'pcg64_sample(rng, 1, NULL, 0)' 'lots_count(NULL, 0, items)' 'lots_draw(NULL, 0, NULL, 0, 0)'
    warns "$1" '' "${calls[@]}" 'nanorand_pcg64_fill_bytes(rng, NULL, 0);' 'nanorand_lots_digest(NULL, 0, text);'
}

# The compiler in $1 reports the text $3 for the statement $2 in C++.
refuses() {
    statements_in_cpp "$2" >"$work/warns.c"
    check "$1: $2" "$(! compile "$1" "${also[@]}" -c -o "$work/warns.o" "$work/warns.c" &&
        grep -qF "$3" "$work/errors" || echo "it does not report $3: $(head -n 5 "$work/errors")")"
}

# The same, and the compiler in $1 reports no other error.
only_error() {
    refuses "$@"
    check "$1: $2: the only error" "$(grep 'error:' "$work/errors" | grep -vF "$3")"
}

# The compiler warns if a number is drawn and not used. Mistakes in types are errors with a text for users. The header
# is compiled once, before the statements.
warnings_of_classes() {
    local call calls also=(-include "$work/classes.hpp")
    rm -f "$work/classes.hpp.gch"
    printf '#include <%s>\n' nanorand.hpp list >"$work/classes.hpp"
    check "$1: the header before" "$(compile "$1" -c -x c++-header -o "$work/classes.hpp.gch" "$work/classes.hpp" || said)"
    calls_of '' ';' 'rng.range(1, 6)' 'rng.try_range(1, 6)' 'rng.below(6)' 'rng.f64()' 'rng.choose(items)' \
        'rng.sample(6, 2)' 'rng.part(1, 1)' 'rng.distance(rng)' 'rng.state()' 'rng.min()' 'nanorand::Pcg64::max()' \
        'nanorand::WyRand::from_seed(1)' 'nanorand::Pcg64::from_seed(1, 2)' 'nanorand::WyRand::from_state({1})' \
        'nanorand::Stream::from_key({})' 'nanorand::ChaCha8(1).block()' 'nanorand::lots::draw("seed", 3, 1)' \
        'nanorand::lots::count("")' 'nanorand::lots::digest("")'
    statements_in_cpp "${calls[@]}" >"$work/warns.c"
    warned "$1" unused-result "${calls[@]}"
    calls_of '' ';' 'rng()' 'rng.shuffle(items)' 'rng.discard(1)' 'rng.fill(items.data(), 4)'
    statements_in_cpp "${calls[@]}" >"$work/warns.c"
    warned "$1" '' "${calls[@]}"
    check "${1% *} c++11" "$(! compile "${1% *} c++11" -fsyntax-only c/include/nanorand.hpp &&
        grep -qF 'needs C++17' "$work/errors" || said)"
    for call in WyRand Pcg64 ChaCha8 ChaCha12 ChaCha20 Keystream Stream; do
        refuses "$1" "nanorand::$call unseeded;" "a seed is needed, such as $call rng(42)"
    done
    refuses "$1" 'nanorand::WyRand converted = 42;' 'conversion'
    refuses "$1" '(void)stream.part(1, 1);' 'a Stream has no parts: use Keystream'
    refuses "$1" 'rng.fill(items);' 'fill takes bytes that can be written'
    refuses "$1" 'const char text[4] = ""; rng.fill(text);' 'fill takes bytes that can be written'
    refuses "$1" '(void)rng.range(0, items.size());' 'no matching'
    refuses "$1" '(void)rng.choose(std::vector<int>{1, 2});' 'a temporary would dangle: give the container a name'
    # The text for users is the only error.
    local integers='range draws integers of at most 64 bits; for a'
    only_error "$1" '(void)rng.range(1.0, 2.0);' "$integers floating-point number, use f64()"
    only_error "$1" '(void)rng.try_range(1.0f, 2.0f);' "$integers floating-point number, use f64()"
    only_error "$1" '(void)rng.range(false, true);' "$integers bool or an enum, draw an integer and convert it"
    only_error "$1" 'enum class coin { head, tail }; (void)rng.range(coin::head, coin::tail);' \
        "$integers bool or an enum, draw an integer and convert it"
    only_error "$1" '(void)rng.below(true);' 'below takes an integer of at most 64 bits'
    only_error "$1" '(void)rng.below(6.0);' \
        'below takes an integer of at most 64 bits; for a floating-point number, use f64()'
    for call in 'std::list<int> list{1, 2}; rng.shuffle(list);' \
        'std::list<int> list{1, 2}; rng.shuffle(list.begin(), list.end());'; do
        only_error "$1" "$call" 'shuffle needs random access: copy the items to a std::vector'
    done
    for call in 'const std::vector<int> fixed{1, 2}; rng.shuffle(fixed);' 'rng.shuffle(items.cbegin(), items.cend());' \
        'const int fixed[] = {1, 2}; rng.shuffle(fixed);' 'const std::vector<bool> bits(2); rng.shuffle(bits);'; do
        only_error "$1" "$call" 'shuffle moves the items, so they must not be const'
    done
}

# If size_t has 32 bits, the header reports an error of its own. A compiler without attributes finds none in it.
other_compilers() {
    local clang=(clang -ffreestanding -fsyntax-only -Ic/include c/tests/alone.c)
    if ! command -v clang >/dev/null; then
        skip 'the header for 32 bits' 'there is no clang'
        return
    fi
    "${clang[@]}" --target=i386 2>"$work/errors"
    check 'the header for 32 bits' \
        "$(grep -q 'error: "nanorand needs a size_t of 64 bits"' "$work/errors" || echo 'there is no such error')"
    check 'the header for 64 bits' "$("${clang[@]}" --target=x86_64 2>&1)"
    check 'the header without attributes' "$("${clang[@]}" --target=x86_64 -U__GNUC__ 2>&1)"
    check 'no attribute' "$("${clang[@]}" --target=x86_64 -U__GNUC__ -E 2>&1 | grep -m 1 'nonnull\|warn_unused')"
}

# The program that measures the calls compiles, also with what it calls of libsodium, if that is there.
benchmark() {
    check 'bench/c/bench.c' "$(compile 'cc c11' -fsyntax-only bench/c/bench.c || said)"
    if [ -e /usr/include/sodium.h ]; then
        check 'bench/c/bench.c with libsodium' "$(compile 'cc c11' -fsyntax-only -DSODIUM bench/c/bench.c || said)"
    else
        skip 'bench/c/bench.c with libsodium' 'there is no /usr/include/sodium.h'
    fi
}

# Links both releases completely into one program, in the order of these archives. The program has the exports of both,
# and no export of one has the address of an export of the other.
both_releases() {
    local shared
    if ! cc -o "$work/both" "$work/ours.o" "$work/theirs.o" -Wl,--whole-archive "$@" -Wl,--no-whole-archive \
        2>"$work/errors"; then
        check 'two releases' "$(said)"
        return
    fi
    quiet_part 'two releases' "$work/both"
    nm "$work/both" | grep ' nanorand_v[12]_' >"$work/exports"
    check 'all exports' "$(tr ' ' '\n' <"$work/renamed" | sort | diff - <(cut -d ' ' -f 3 "$work/exports" | sort))"
    shared=$(sed -E 's/(_v[12]_).*/\1/' "$work/exports" | sort -u | cut -d ' ' -f 1 | uniq -d)
    check 'a body for each release' "$shared"
}

# The other release has the number 2 in the names in its header and its archive.
two_releases() {
    local source=c/tests/two_releases.c archive other=$work/libother.a
    mkdir "$work/other"
    sed 's/nanorand_v1_/nanorand_v2_/' c/include/nanorand.h >"$work/other/nanorand.h"
    tools/header.py --symbols | sed 's/nanorand_v1_\(.*\)/& nanorand_v2_\1/' >"$work/renamed"
    if ! compile 'cc c11' -c -o "$work/ours.o" "$source" ||
        ! compile 'cc c11' "-I$work/other" -DOTHER_RELEASE -c -o "$work/theirs.o" "$source"; then
        check 'two releases' "they are not built: $(cat "$work/errors")"
        return
    fi
    for archive in "${archives[@]}"; do
        objcopy --redefine-syms="$work/renamed" "$archive" "$other"
        both_releases "$archive" "$other"
        both_releases "$other" "$archive"
    done
}

# The tests run all code of the exports. The crate is compiled so that LLVM counts what runs.
all_exports_run() {
    local source command package target=$work/coverage
    read -r command package < <(tools/uncovered.py --tools)
    if [ -z "$package" ] || ! available "$command" "$package" cc gcc; then
        skip 'whether the tests of C run all exports' "there is no $command or cc"
        return
    fi
    export LLVM_PROFILE_FILE=$target/profiles/%m-%p.profraw
    RUSTFLAGS=-Cinstrument-coverage cargo build --quiet --offline --target-dir "$target" --manifest-path rust/nanorand-c/Cargo.toml
    # The crate has no std, so nothing unwinds.
    for source in "${sources[@]}" c/tests/answers.c; do
        cc -DFEW -Ic/include -Ic/tests -o "$target/debug/deps/$(basename "$source" .c)" "$source" "$target/debug/libnanorand.a" \
            -Wl,--defsym=rust_eh_personality=0 -Wl,--undefined=__llvm_profile_runtime
        quiet_part "$source, counted" "$target/debug/deps/$(basename "$source" .c)"
    done
    unset LLVM_PROFILE_FILE
    part tools/uncovered.py "$target" rust/nanorand-c/src
}

! asked_for cargo || by_cargo
! asked_for kit || by_the_kit
part tools/header.py --check "${archives[@]}"
# The rows of the table of known answers. Most of those of `stream` are used twice.
rows=$(awk -F '\t' '!/^#/ { rows += $1 == "stream" && $3 != "part" ? 2 : 1 } END { print rows }' tests/answers/answers.tsv)
for words in "${standards[@]}"; do
    compiler "$words"
done
! asked_for cargo || other_compilers
# So the classes of two releases have other symbols too.
expect 'the version of the classes' \
    "$(sed -n 's/^#define nanorand_version nanorand_\(v[0-9]*\)_version$/\1/p' c/include/nanorand.h)" \
    "$(sed -n 's/^inline namespace \(v[0-9]*\) {$/\1/p' c/include/nanorand.hpp)"
if available cc gcc; then
    ! asked_for cargo || benchmark
    two_releases
fi
if [ -n "${archives[cargo]-}" ]; then
    part env COMPILED="$work/once.a" c/tests/install.sh
    # Debian's rustc, an old version, may be installed beside a newer one.
    available /usr/bin/rustc rustc /usr/bin/cargo cargo
    part tests/c_crate.sh
    all_exports_run
fi
finish
