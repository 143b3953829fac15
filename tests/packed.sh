#!/usr/bin/env bash
# Tests the Rust packages as a registry would hold them: tests/packed.sh. The last line is N passed, M failed.
#
# It packs each package, unpacks it into a folder of its own, and runs its tests there, with the oldest compiler that the
# packages support if it is there. No package sees this repository: they get each other from a folder that stands in for
# the registry. The crates of others in it are Debian's. The only warning that packing may give is that a manifest names
# no repository.
# shellcheck source=tests/lib.sh
source "$(dirname "${BASH_SOURCE[0]}")/lib.sh"
shelf=$work/registry
from_registry=(--offline --config 'source.crates-io.replace-with="packed"'
    --config "source.packed.directory=\"$shelf\"")
export CARGO_TARGET_DIR=$work/target

# Packs what these arguments of cargo name, and fails for any warning but the one that is allowed.
packs() {
    cargo package --allow-dirty --no-verify "$@" 2>&1 | tee "$work/said"
    [ "${PIPESTATUS[0]}" -eq 0 ] && ! grep '^warning' "$work/said" |
        grep -vx 'warning: manifest has no documentation, homepage or repository'
}

# Unpacks each new package into the registry, with its digest, which the lock files of others name.
put_into_the_registry() {
    local file name
    for file in "$CARGO_TARGET_DIR"/package/*.crate; do
        name=$(basename "$file" .crate)
        [ ! -e "$shelf/$name" ] || continue
        tar -xzf "$file" -C "$shelf" || return
        printf '{"files":{},"package":"%s"}\n' "$(sha256sum "$file" | cut -d ' ' -f 1)" \
            >"$shelf/$name/.cargo-checksum.json"
    done
}

# Gives the unpacked package $1 a folder of its own.
unpacked() {
    rm -rf "$work/alone"
    step cp -r "$(compgen -G "$shelf/$1-[0-9]*" | grep -E "/$1-[0-9.]+$")" "$work/alone"
}

# Runs the tests of the unpacked package $1, with further arguments of cargo.
tests_alone() {
    unpacked "$1" || return
    cargo_tests "${oldest[@]}" test "${from_registry[@]}" --manifest-path "$work/alone/Cargo.toml" "${@:2}"
}

# Compiles the unpacked package $1 and its tests with its default features.
compiles_alone() {
    unpacked "$1" && step "${oldest[@]}" check --tests "${from_registry[@]}" --manifest-path "$work/alone/Cargo.toml"
}

# Packs and tests the package in rust/$1, whose name is $2, with further arguments of cargo. It needs others of the
# registry.
outside_the_workspace() {
    step packs "${from_registry[@]}" --manifest-path "rust/$1/Cargo.toml" && step put_into_the_registry &&
        tests_alone "${@:2}"
}

# Puts Debian's crates into the registry, if those with the names that begin like this are installed.
crates_of_others() {
    packages "$@" &&
        find "$registry" -mindepth 1 -maxdepth 1 ! -name 'nanorand-*' -exec ln -sf -t "$shelf" {} +
}

if [ "$(cargo --version | sed -nE 's/^cargo 1\.([0-9]+)\..*/\1/p')" -lt 90 ]; then
    skip_all 'the packed packages, and their tests with the oldest compiler' \
        'cargo packs packages that depend on each other from 1.90 on'
fi
version=$(sed -n 's/^rust-version = "\(.*\)"$/\1/p' Cargo.toml)
if is_version "$version" "$oldest_bin/rustc"; then
    oldest=(env "RUSTC=$oldest_bin/rustc" "RUSTDOC=$oldest_bin/rustdoc" "$oldest_bin/cargo")
else
    skip "rustc $version, the oldest that Cargo.toml names" "$oldest_bin has none"
    oldest=(cargo)
fi
mkdir "$shelf"
step grep -qx 'publish = false' rust/nanorand-c/Cargo.toml
step packs --offline --workspace --exclude nanorand-answers
step put_into_the_registry
# Skipped, because they are slow without full optimization: the sweeps, and the lists of all sizes of the programs. The
# library's tests run once without the checks of a debug build, as in a program that is built for release.
CARGO_PROFILE_DEV_DEBUG_ASSERTIONS=false CARGO_PROFILE_DEV_OVERFLOW_CHECKS=false \
    tests_alone nanorand-proved -- --skip sweeps::
tests_alone nanorand-proved --no-default-features --lib --tests -- --skip sweeps::
for name in nanorand-program lots draw; do
    CARGO_PROFILE_DEV_OPT_LEVEL=1 tests_alone "$name" -- --skip all_
done
if crates_of_others getrandom-0.2. zeroize-1.; then
    # The name of the drop-in's package is that of the crate which it replaces.
    outside_the_workspace nanorand-drop-in nanorand --all-features && compiles_alone nanorand
else
    skip 'the packed drop-in' 'the crates getrandom and zeroize are not there'
fi
if crates_of_others rand_core-0.6.; then
    outside_the_workspace nanorand-rand-core nanorand-proved-rand-core
else
    skip 'the packed adapter for rand_core' 'that crate is not there'
fi
finish
