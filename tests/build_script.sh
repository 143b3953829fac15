#!/usr/bin/env bash
# Tests build.rs of rust/nanorand-proved, which switches on the compiler's hints at mistakes if the compiler's version
# has them: tests/build_script.sh. The last line is N passed, M failed.
# shellcheck source=tests/lib.sh
source "$(dirname "${BASH_SOURCE[0]}")/lib.sh"

# build.rs prints $2 if RUSTC is the compiler $1, whose version is $3, or if RUSTC is not set and $1 is empty.
build_prints() {
    local printed
    printed=$(env -u RUSTC ${1:+"RUSTC=$1"} "SAID=$3" target/build_script/program) && [ "$printed" = "$2" ] && return
    printf '%s that says %s: %s\n' "$1" "$3" "$printed"
    return 1
}

# It sets the hints for each version from 1.78 on, and do_not_recommend from 1.85 on. It declares both names for
# each version from 1.80 on, and if it cannot read the version.
sets_hints_by_the_version() {
    local folder=$PWD/target/build_script first=cargo:rerun-if-changed=build.rs minor rest said wanted
    local name=$'\ncargo:rustc-check-cfg=cfg(diagnostic_hints, do_not_recommend)'
    local hints=$'\ncargo:rustc-cfg=diagnostic_hints' recommend=$'\ncargo:rustc-cfg=do_not_recommend'
    mkdir -p "$folder" && rustc --edition 2021 -o "$folder/program" rust/nanorand-proved/build.rs || return
    printf '#!/bin/sh\necho rustc 1.80.0 >&2\nexit 1\n' >"$folder/fails"
    cat >"$folder/says" <<'END'
#!/bin/sh
[ "$*" != --version ] || printf %b "$SAID"
END
    chmod +x "$folder/says" "$folder/fails" || return
    for minor in {0..130} 178 780 8000; do
        wanted=$first
        [ "$minor" -lt 80 ] || wanted+=$name
        [ "$minor" -lt 78 ] || wanted+=$hints
        [ "$minor" -lt 85 ] || wanted+=$recommend
        for rest in '.0 (90b35a623 2024-11-26)\n' '.1-nightly (90b35a623 2024-11-26)\n' .79-beta.80; do
            build_prints "$folder/says" "$wanted" "rustc 1.$minor$rest" || return
        done
    done
    for said in '' '\n' rustc nightly 'rustc 1' 'rustc 1.' 'rustc 1..80' 'rustc 1.x.0' 'rustc 1.-80.0' 'rustc 1. 80.0' \
        'rustc 1.80-nightly' 'rustc 1.4294967376.0' 'rustc 11.80.0' 'rustc 0.80.0' 'rustc 2.80.0' 'clippy 1.80.0' \
        ' rustc 1.80.0' 'rustc  1.80.0' 'Rustc 1.80.0' '80' '1.80.0' '\0377rustc 1.80.0' 'rustc 1.80.0 \0377'; do
        build_prints "$folder/says" "$first$name" "$said" || return
    done
    build_prints "$folder/fails" "$first$name" '' && build_prints "$folder/none" "$first$name" '' &&
        build_prints '' "$first$name" ''
}

step sets_hints_by_the_version
finish
