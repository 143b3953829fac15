#!/usr/bin/env bash
# Runs the unedited tests of three other crates over this library: tempfile and async-executor, which use fastrand, and
# im-rc, which uses rand_xoshiro. The packages of tests/clients have the names of these two, and only the calls that the
# three clients make. The clients, and what their tests need, are Debian's packages. Of im-rc, the tests of sorting run,
# for which alone it draws numbers.
# Flume, a client of nanorand 0.7, is tested by tests/drop_in.sh.
# shellcheck source=tests/lib.sh
source "$(dirname "${BASH_SOURCE[0]}")/lib.sh"
cd tests/clients || exit
here=$PWD
export CARGO_TARGET_DIR=$here/target
# Whether cargo takes the crate $1 from this folder for a client, by these options. Else it would only warn.
takes_ours() {
    local found
    found=$(cargo tree "${@:2}" --prefix none --invert "$1" | head -n 1)
    grep -qF "($here/$1)" <<<"$found" || { echo "it takes $found"; return 1; }
}

# The tests of a client pass, which takes the package of this folder by a patch alone: client NAME-VERSION CRATE [WORD].
# Only the tests whose names contain the word run. They are in $work/NAME.
client() {
    local name=${1%-*} words
    words=("${debian[@]}" --manifest-path "$work/$name/Cargo.toml" --config "patch.crates-io.$2.path=\"$here/$2\"")
    step takes_ours "$2" "${words[@]}"
    cargo_tests timeout 900 cargo test "${words[@]}" -- "${@:3}"
}

# Copies a client to $work/NAME, without these test dependencies, which no test of it needs that runs here: copied
# NAME-VERSION [CRATE..]. Compiling them would take a minute.
copied() {
    local name=${1%-*} crate
    cp -r "$registry/$1"* "$work/$name"
    for crate in "${@:2}"; do
        sed -i "/^$crate = /d; /^\[dev-dependencies\.$crate\]\$/,/^\$/d" "$work/$name/Cargo.toml"
    done
}

# Removes from im-rc all test modules but that of sorting.
only_sorting() {
    local folder=$work/im-rc/src
    rm -r "$folder/tests"
    find "$folder" -name '*.rs' ! -name sort.rs -exec sed -i -z 's/\n#\[cfg(test)\]\nmod \(lib_\)\?test {.*/\n/' {} +
    sed -i -z 's/#\[cfg(test)\]\n\(mod tests;\|#\[macro_use\]\nextern crate pretty_assertions;\)\n//g
        s/any(test, \(feature = "serde"\))/\1/' "$folder/lib.rs"
}

# A package of this folder compiles with the oldest compiler, and is linted: shim CRATE.
shim() {
    local words=("${debian[@]}" --manifest-path "$here/$1/Cargo.toml")
    if is_version 1.63 "$oldest_bin/rustc"; then
        step env "RUSTC=$oldest_bin/rustc" "$oldest_bin/cargo" check "${words[@]}" --target-dir "$here/target/oldest"
    else
        skip "$1 with rustc 1.63, the oldest that Cargo.toml names" "$oldest_bin has none"
    fi
    if cargo clippy --version >/dev/null 2>&1; then
        step cargo clippy "${words[@]}" --all-targets -- -D warnings -W clippy::pedantic
    else
        skip "clippy of $1" 'it is not there'
    fi
    if cargo fmt --version >/dev/null 2>&1; then
        step cargo fmt --check --manifest-path "$here/$1/Cargo.toml"
    else
        skip "the format of $1" 'there is no rustfmt'
    fi
}

if ! available cargo cargo rustc rustc; then
    skip_all 'the clients of other crates' 'there is no cargo or no rustc'
fi
shim fastrand
cargo_tests cargo test "${debian[@]}" --manifest-path "$here/fastrand/Cargo.toml"
if packages tempfile-3. doc-comment-0.3.; then
    copied tempfile-3.
    client tempfile-3. fastrand
else
    skip 'the tests of tempfile' 'that crate or one of its peers is not there'
fi
if packages async-executor-1. async-channel-1. easy-parallel-3. once_cell-1.; then
    copied async-executor-1. async-io num_cpus
    client async-executor-1. fastrand
else
    skip 'the tests of async-executor' 'that crate or one of its peers is not there'
fi
if packages rand_core-0.6.; then
    shim rand_xoshiro
else
    skip 'rand_xoshiro' 'the crate rand_core is not there'
fi
# Debian's proptest and quickcheck only suggest what their default features need: the crates from bit-set on.
if packages im-rc-15. rand_core-0.6. tiny-keccak-2. proptest-1. rand-0.8. rayon-1. serde-1. bit-set-0.5. \
    lazy_static-1. quick-error-2. regex-syntax-0.6. rusty-fork-0.3. tempfile-3. wait-timeout-0.2. quickcheck-1. \
    env_logger-0.9. regex-1. aho-corasick-0.7.; then
    copied im-rc-15. pretty_assertions rand rayon serde serde_json
    only_sorting
    client im-rc-15. rand_xoshiro sort
else
    skip 'the tests of im-rc' 'that crate or one of its peers is not there'
fi
finish
