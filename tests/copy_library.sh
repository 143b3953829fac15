#!/usr/bin/env bash
# Tests ./copy_library.
#
#     tests/copy_library.sh           takes seconds
#     tests/copy_library.sh proved    also proves, which takes minutes
#
# First a small stand-in for the library is copied, with and without kept proofs, over an older copy, and with the
# wrappers for the kit's rand. The test compares what is printed, copied, kept and ignored by git. Then the library is
# copied, and the test follows CALLING's first steps in a fresh repository and the steps of TASKS with `rand`. Both
# programs run unproved. `proved` then proves the library if its kept proofs are missing, copies it with them, and
# proves and runs the program. This must not prove any of the library again. The last line is N passed, M failed.
# shellcheck source=tests/lib.sh
source "$(dirname "${BASH_SOURCE[0]}")/lib.sh"
top=$PWD
crates=(nanorand_core nanorand_replay nanorand_fairness nanorand)
lines=('nanorand_core: thiserror' 'nanorand_replay: nanorand_core thiserror' 'nanorand_fairness: nanorand_core'
    'nanorand: nanorand_core nanorand_replay nanorand_fairness thiserror')
with='with kept proofs'
without='without proofs that rt kept: the first check takes some minutes'
stay='keeping its earlier proofs: the next check proves what has changed'

# What the folder $1's ./copy_library says about proofs when it copies to $2.
copy() {
    "$1/copy_library" "$2" | sed "s|^copied nanorand_core, nanorand_replay, nanorand_fairness and nanorand to $2, ||"
}

# Writes the files that `rt` would keep for the crates below $1, with the text $2.
keep() {
    local name
    for name in "${crates[@]}"; do
        mkdir -p "$1/$name"/out/{rlib,incremental,other}
        echo "$2" | tee "$1/$name"/out/{rlib,incremental,other}/proof >/dev/null
        touch "$1/$name/out/rlib/stamp"
    done
}

# The files below the folder $1.
files() {
    (cd "$1" && find . -type f | LC_ALL=C sort | sed 's|^\./||' | tr '\n' ' ')
}

# The contents of all files below the folder $1.
contents() {
    (cd "$1" && find . -type f | LC_ALL=C sort | xargs -r sha256sum)
}

# Makes a stand-in for the library, of a few lines.
make_library() {
    local name
    mkdir -p "$1/crates"
    cp "$top/copy_library" "$top/LICENSE" "$1"
    for name in "${crates[@]}" nanorand_rand; do
        mkdir -p "$1/crates/$name"/{src/deep,specs/deep,proofs/deep,mutants,must-fail}
        echo "$name" | tee "$1/crates/$name"/{src/lib.rt,specs/Lib.antt,proofs/Lib.antt,mutants/a.edit} \
            "$1/crates/$name"/{src/deep/one.rt,specs/deep/One.antt,proofs/deep/Answers.antt} >/dev/null
    done
    echo 'See [the list](../../docs/PROMISES.md) and [the source](src/lib.rt).' >"$1/crates/nanorand/CALLING.md"
    echo 'See [the steps](CALLING.md#first) and [another page](OTHER.md).' >"$1/crates/nanorand/TASKS.md"
}

of_a_stand_in() {
    local library=$work/library own=$work/own name sources='LICENSE '
    sources+='proofs/Lib.antt proofs/deep/Answers.antt specs/Lib.antt specs/deep/One.antt src/deep/one.rt src/lib.rt '
    make_library "$library"
    mkdir -p "$own/crates/dice/src"
    git -C "$own" init -q
    echo mine | tee "$own/.gitignore" "$own/crates/dice/src/main.rt" >/dev/null

    expect 'a first copy' "$without" "$(copy "$library" "$own/crates")"
    for name in "${crates[@]}"; do
        expect "the files of $name" ".gitignore $sources" "$(files "$own/crates/$name" | sed -E 's/(CALLING|TASKS).md //g')"
    done
    expect 'its links' 'See the list and [the source](src/lib.rt).' "$(cat "$own/crates/nanorand/CALLING.md")"
    expect 'links from page to page' 'See [the steps](CALLING.md#first) and another page.' \
        "$(cat "$own/crates/nanorand/TASKS.md")"

    keep "$own/crates" older
    echo changed >"$library/crates/nanorand_core/src/lib.rt"
    mv "$library/crates/nanorand/proofs/Lib.antt" "$library/crates/nanorand/proofs/Other.antt"
    mv "$library/crates/nanorand/proofs/deep" "$library/crates/nanorand/proofs/other"
    expect 'an update' "$stay" "$(copy "$library" "$own/crates")"
    expect 'a file that changed' changed "$(cat "$own/crates/nanorand_core/src/lib.rt")"
    expect 'files that went' 'Other.antt other/Answers.antt ' "$(files "$own/crates/nanorand/proofs")"
    for name in "${crates[@]}"; do
        expect "the proofs of $name" 'older older' "$(cat "$own/crates/$name"/out/{rlib,incremental}/proof | paste -sd ' ')"
    done

    for name in "${crates[@]}"; do
        mkdir -p "$library/crates/$name/out/rlib"
        touch "$library/crates/$name/out/rlib/stamp"
        expect "an update by a clone that proved $name alone" "$stay" "$(copy "$library" "$own/crates")"
        expect 'the proofs after it' older "$(cat "$own"/crates/*/out/rlib/proof | uniq)"
        rm -r "$library/crates/$name/out"
    done

    for name in "${crates[@]}"; do
        mkdir -p "$library/crates/$name/out/rlib"
    done
    expect 'an update by a clone whose proof was cut off' "$stay" "$(copy "$library" "$own/crates")"
    keep "$library/crates" newer
    expect 'an update with proofs' "$with" "$(copy "$library" "$own/crates")"
    for name in "${crates[@]}"; do
        expect "the newer proofs of $name" 'newer newer' "$(cat "$own/crates/$name"/out/*/proof | paste -sd ' ')"
    done
    expect 'what git sees' "$(cd "$own" && find crates -name out -prune -o -type f -print | LC_ALL=C sort)" \
        "$(git -C "$own" ls-files --others --exclude-standard crates | LC_ALL=C sort)"

    with_rand "$library" "$work/rand" "$sources"

    echo mine >"$own/crates/nanorand/.gitignore"
    copy "$library" "$own/crates" >/dev/null
    for name in .gitignore crates/nanorand/.gitignore crates/dice/src/main.rt; do
        expect "the user's $name" mine "$(cat "$own/$name")"
    done
    refused_copies "$library" "$own/crates"
}

# The wrappers for the kit's rand are copied if --rand asks for them, or if an older copy has them.
with_rand() {
    local said="copied nanorand_core, nanorand_replay, nanorand_fairness, nanorand and nanorand_rand to $2, $without"
    expect 'a copy with rand' "$said" "$("$1/copy_library" --rand "$2")"
    expect 'its files' ".gitignore $3" "$(files "$2/nanorand_rand")"
    echo older >"$2/nanorand_rand/src/lib.rt"
    expect 'an update with rand' "$said" "$("$1/copy_library" "$2")"
    expect 'the file after it' nanorand_rand "$(cat "$2/nanorand_rand/src/lib.rt")"
}

# The last line that the folder $1's ./copy_library prints when it fails to copy to $2.
refusal() {
    local said
    said=$("$1/copy_library" "$2" 2>&1) && echo 'no refusal'
    tail -n 1 <<<"$said"
}

# A copy that fails leaves the crate that it could not replace unchanged. A copy that would replace the library $1
# itself is an error.
refused_copies() {
    local before folder said
    before=$(contents "$2/nanorand_fairness" && contents "$2/nanorand")
    rm -r "$1/crates/nanorand_fairness/specs"
    expect 'a copy that fails' "FileNotFoundError: [Errno 2] No such file or directory: \
'$(realpath "$1")/crates/nanorand_fairness/specs'" "$(refusal "$1" "$2")"
    expect 'what it leaves' "$before" "$(contents "$2/nanorand_fairness" && contents "$2/nanorand")"
    mv "$1" "$work/nanorand"
    mkdir "$work/links"
    ln -s "$work/nanorand/crates" "$work/links/crates"
    ln -s ../nanorand "$work/links/library"
    before=$(contents "$work")
    said="usage: ./copy_library [--rand] FOLDER, the folder of your repository's crates"
    expect 'its usage' "$said" "$(refusal "$work/nanorand" --help)"
    for folder in "$work/nanorand/crates" "$work/nanorand" "$work/nanorand/crates/nanorand/src" "$work" \
        "$work/links/crates" "$work/links/library" "$work/links/library/crates" "$work/own/../nanorand/crates"; do
        said="./copy_library: a copy to $(realpath "$folder") would replace the repository that is copied"
        expect "a copy to $folder" "$said" "$(refusal "$work/nanorand" "$folder")"
    done
    expect 'files after that' "$before" "$(contents "$work")"
}

# CALLING's first steps in the repository $2, with the library in the folder $1.
first_steps() {
    mkdir -p "$2/crates/dice/src"
    git -C "$2" init -q
    "$1/copy_library" "$2/crates" >/dev/null
    printf '%s\n' "${lines[@]}" 'dice: nanorand' >"$2/crates.txt"
    cp "$top/crates/dice/src/main.rt" "$2/crates/dice/src/main.rt"
}

# After them, the steps of "Together with `rand`" in TASKS.
steps_with_rand() {
    mkdir -p "$2/crates/rand_dice/src"
    "$1/copy_library" --rand "$2/crates" >/dev/null
    printf '%s\n' 'nanorand_rand: nanorand nanorand_core nanorand_replay rand_core' \
        'rand_dice: nanorand_rand nanorand rand' >>"$2/crates.txt"
    cp "$top/crates/rand_dice/src/main.rt" "$2/crates/rand_dice/src/main.rt"
}

# What the program $1 in the repository $2 prints when the rt command that follows runs it.
throws() {
    (cd "$2/crates/$1" && "${@:3}" 2>"$work/log" | paste -sd ' ')
}

of_the_library() {
    local library=$work/unproved name broken
    mkdir -p "$library/crates"
    cp "$top/copy_library" "$top/LICENSE" "$library"
    for name in "${crates[@]}" nanorand_rand; do
        mkdir "$library/crates/$name"
        cp -R "$top/crates/$name"/{src,specs,proofs} "$library/crates/$name"
    done
    cp "$top/crates/nanorand"/*.md "$library/crates/nanorand"
    first_steps "$library" "$work/fresh"
    broken=$(cd "$work/fresh/crates/nanorand" && grep -ohE '\]\([^)#]+' -- *.md | sed 's/](//' | sort -u |
        while read -r link; do [ -e "$link" ] || echo "$link"; done)
    expect 'links that resolve' '' "$broken"
    expect 'the throws' '2 6 2 5 1 4 4 4 6 4' "$(throws dice "$work/fresh" rt try)"
    steps_with_rand "$library" "$work/fresh"
    expect 'the throws by rand' '4 5 1 1 6 5 3 6 2 1' "$(throws rand_dice "$work/fresh" rt try)"
}

of_the_proved_library() {
    (cd "$top/crates/nanorand" && rt lib)
    first_steps "$top" "$work/proved"
    expect 'the proved throws' '2 6 2 5 1 4 4 4 6 4' "$(throws dice "$work/proved" rt run)"
    expect 'what is proved again' '' "$(grep -E '(library|crate) nanorand.*checked=[1-9]' "$work/log" || true)"
}

of_a_stand_in
of_the_library
[ "${1:-}" != proved ] || of_the_proved_library
[ "$failed" -eq 0 ] || tail -n 20 "$work/log"
finish
