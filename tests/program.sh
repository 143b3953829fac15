# shellcheck shell=bash
# Shared functions of the tests of the programs `draw` and `lots`, to be sourced after lib.sh. $work has the builds of a
# program, named after what built them, and the streams of a case, `out` and `err`.
# shellcheck disable=SC2154

# Puts the builds of the program $1 that the script is to test into $work: `rattle` and `llvm` by the kit's two
# compilers, and `cargo`, which `cargo install` installs from the package in rust/.
builds_of() {
    local name=$1
    if ! asked_for kit; then
        true
    elif [ -z "${BUILT:-}" ] && ! command -v rt >/dev/null; then
        skip "the program $name of the kit's compilers" 'there is no kit'
    else
        step tests/build.sh "$name"
        step cp "crates/$name/out/$name" "$work/llvm"
        step cp "crates/$name/out/$name.by-rattle" "$work/rattle"
    fi
    if ! asked_for cargo; then
        true
    elif ! available cargo cargo rustc rustc; then
        skip "the program $name that cargo installs" 'there is no cargo or no rustc'
    else
        step cargo install --quiet --offline --path "rust/$name" --root "$work/installed"
        step mv "$work/installed/bin/$name" "$work/cargo"
    fi
}

# The builds that are there.
builds() {
    local build
    for build in rattle llvm cargo; do
        [ ! -x "$work/$build" ] || echo "$build"
    done
}

# Counts the case $1 of the build that is tested, as `check` does.
count() {
    check "$1, by $compiler" "$2"
}

# Says that $1 is $2, unless that equals the expected $3.
differs() {
    [ "$2" = "$3" ] || printf ' %s is %q and not %q;' "$1" "$2" "$3"
}

# Says what $1, in the file $2, is, unless it is the text $3, which has the escapes of printf's %b.
differs_in() {
    holds "$work/$2" "$3" || printf ' %s is %q;' "$1" "$(head -c 300 "$work/$2" | tr '\0' '?')"
}

# Whether the file $1 is such a text $2. Two processes for each case take long, but a variable cannot hold a byte 0: an
# escape may stand for one, and `read` ends at one with status 0.
holds() {
    local found wanted
    if [[ $2 == *\\[0xuU]* ]] || IFS= read -r -d '' found <"$1"; then
        printf '%b' "$2" | cmp -s - "$1"
    else
        printf -v wanted '%b' "$2"
        [ "$found" = "$wanted" ]
    fi
}

# Says what $1, in the file $2, is, unless it equals the file $3.
differs_from() {
    cmp -s "$work/$2" "$work/$3" || printf ' %s is %q;' "$1" "$(head -c 300 "$work/$2" | tr '\0' '?')"
}

# Empties the two streams of a case.
begin() {
    : >"$work/out"
    : >"$work/err"
    status=0
}

# Compares the case $1 with the wanted status, standard output and standard error.
end() {
    count "$1" "$(
        differs 'status' "$status" "$2"
        differs_in 'standard output' out "$3"
        differs_in 'standard error' err "$4"
    )"
}

# The builds of a program are different files: none is a copy of another.
all_different() {
    local kinds
    kinds=$(builds | sed "s|^|$work/|" | xargs sha256sum | cut -c -64 | sort -u | wc -l)
    compiler=all
    count 'builds' "$(differs 'how many differ' "$kinds" "$(builds | wc -l)")"
}
