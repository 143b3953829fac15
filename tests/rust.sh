#!/usr/bin/env bash
# Tests the Rust packages: tests/rust.sh. The last line is N passed, M failed.
#
# It tests the tools that compare their sources with the proved ones; their conditions for targets; the workspace, the
# library's build.rs and the packed packages, in a copy without this repository's other files and without the kit; the
# adapter for rand_core; the drop-in replacement for nanorand 0.7.0; whether bench/quality compiles; and using and
# installing the packages from a clone. The workspace's tests have to run all its code: tools/uncovered.py checks that
# with Debian's LLVM tools.
# shellcheck source=tests/lib.sh
source "$(dirname "${BASH_SOURCE[0]}")/lib.sh"

# Copies the committed and new files that the tests of the workspace need.
copy_of_workspace() {
    mkdir "$1"
    git ls-files -z --cached --others --exclude-standard Cargo.{toml,lock} {clippy,rustfmt}.toml rust \
        tests/answers tests/{lib,workspace,build_script,packed,targets}.sh tools/uncovered.{py,txt} |
        xargs -0 cp --parents -t "$1"
}

# Gets what compiles, links and runs programs for other targets, as far as it is available.
other_targets() {
    local pairs
    read -r -d '' -a pairs <<'END'
/usr/lib/rustlib/wasm32-unknown-unknown libstd-rust-dev-wasm32
/usr/lib/rustlib/x86_64-pc-windows-gnu libstd-rust-dev-windows
x86_64-w64-mingw32-gcc gcc-mingw-w64-x86-64-posix
/usr/lib/wine/wine64 wine64
i686-linux-gnu-gcc gcc-i686-linux-gnu
/usr/i686-linux-gnu/lib/libc.so libc6-dev-i386-cross
arm-linux-gnueabihf-gcc gcc-arm-linux-gnueabihf
/usr/arm-linux-gnueabihf/lib/libc.so libc6-dev-armhf-cross
aarch64-linux-gnu-gcc gcc-aarch64-linux-gnu
/usr/aarch64-linux-gnu/lib/libc.so libc6-dev-arm64-cross
s390x-linux-gnu-gcc gcc-s390x-linux-gnu
/usr/s390x-linux-gnu/lib/libc.so libc6-dev-s390x-cross
qemu-arm qemu-user
rust-lld lld
node nodejs
END
    available "${pairs[@]}"
    [ "${CI:-}" != true ] || std_of_other_architectures "$work/std" >/dev/null 2>&1
    export NANORAND_STD=$work/std/usr/lib/rustlib
}

# Unpacks Debian's Rust std for other architectures into the folder $1. Installing these packages would require adding
# the architectures to the system, so lists and packages are kept apart from the system's.
std_of_other_architectures() {
    local architectures=(i386 armhf arm64 s390x) package
    local apt=(apt-get -qq -o "APT::Architectures=$(IFS=,; echo "${architectures[*]}")"
        -o "Dir::State::Lists=$1/lists" -o "Dir::Cache=$1/cache")
    mkdir -p "$1/lists/partial" "$1/cache/archives/partial"
    # The status does not matter: a list that fails may not be needed.
    "${apt[@]}" update
    (cd "$1" && "${apt[@]}" download "${architectures[@]/#/libstd-rust-dev:}") || return
    for package in "$1"/*.deb; do
        dpkg -x "$package" "$1" || return
    done
}

# Tests the adapter with Debian's rand_core, its lints, and the crate itself without what its tests need. tests/packed.sh
# tests it with the oldest compiler.
adapter() {
    local manifest=$work/copy/rust/nanorand-rand-core/Cargo.toml
    local words=("${debian[@]}" --manifest-path "$manifest")
    cargo_tests cargo test "${words[@]}"
    step adapter_without_std "${words[@]}"
    step cargo run --quiet "${words[@]}" --example seeded
    step env RUSTDOCFLAGS='-D warnings' cargo doc "${words[@]}" --no-deps
    if cargo clippy --version >/dev/null 2>&1; then
        step cargo clippy "${words[@]}" --all-targets -- -D warnings -W clippy::pedantic
    else
        skip 'clippy of the adapter' 'it is not there'
    fi
    if cargo fmt --version >/dev/null 2>&1; then
        step cargo fmt --check --manifest-path "$manifest"
    else
        skip 'the format of the adapter' 'there is no rustfmt'
    fi
}

# Links a library without std with the adapter, which these words of cargo build. If std were linked, its panic handler
# would be a second one, which is an error. Warnings are failures.
adapter_without_std() {
    local folder=$work/without_std
    cargo rustc "$@" --lib --target-dir "$folder" -- -D warnings &&
        rustc --edition 2021 --crate-type staticlib -C panic=abort -o "$folder/adapter.a" \
            -L "dependency=$folder/debug/deps" \
            --extern "nanorand_proved_rand_core=$folder/debug/libnanorand_proved_rand_core.rlib" - <<'END'
#![no_std]
extern crate nanorand_proved_rand_core as _;
#[panic_handler]
fn panic(_: &core::panic::PanicInfo) -> ! {
    loop {}
}
END
}

# A program takes the adapter from a clone by the commands of its README, and the README's example runs.
adapter_from_a_clone() {
    local program=$work/adapted page=$work/clone/rust/nanorand-rand-core/README.md
    cargo new --quiet --vcs none "$program" && mkdir "$program/.cargo" || return
    printf '[source.crates-io]\nreplace-with = "debian"\n[source.debian]\ndirectory = "%s"\n' "$registry" \
        >"$program/.cargo/config.toml"
    sed -n '/^## /q; s/^\$ //p' "$page" | sed "s|URL|file://$work/clone|" >"$program/commands"
    awk '/^```/ { if (inside) exit; inside = $0 == "```rust"; next } inside' "$page" >"$program/src/main.rs"
    grep -q nanorand-proved-rand-core "$program/commands" && grep -q RngCore "$program/src/main.rs" &&
        (cd "$program" && bash -e commands && cargo run --quiet)
}

# The program that writes the streams for other programs' tests compiles. It needs Rust 1.85.
benchmark() {
    if [ "$(rustc --version | sed -nE 's/^rustc 1\.([0-9]+)\..*/\1/p')" -ge 85 ]; then
        step cargo check --quiet --offline --locked --manifest-path bench/quality/Cargo.toml \
            --target-dir "$work/quality"
    else
        skip 'bench/quality' 'rustc is older than 1.85'
    fi
}

# A program uses the crate from a clone, as a user does from the repository's address.
added_from_a_clone() {
    cargo new --quiet --vcs none "$work/program" &&
        (cd "$work/program" && cargo add --quiet --git "file://$work/clone" nanorand-proved &&
            cp "$work/clone/rust/nanorand-proved/examples/die.rs" src/main.rs && cargo run --quiet)
}

# The programs are installed from a clone, as a user does from the repository's address, but not optimized.
installed_from_a_clone() {
    CARGO_PROFILE_RELEASE_OPT_LEVEL=0 CARGO_PROFILE_RELEASE_LTO=off cargo install --quiet --root "$work/installed" --git "file://$work/clone" lots draw &&
        [ "$(printf 'a\nb\n' | "$work/installed/bin/lots" seed all)" = $'b\na' ] &&
        [ "$("$work/installed/bin/draw" wyrand d29b42879be2895f plain 0 u64)" = 16646288086500911322 ]
}

# A program that depends on nanorand 0.7 gets the drop-in from a clone, by the two lines in its README. The registry is
# empty, so that the original crate cannot be used.
patched_from_a_clone() {
    local program=$work/patched registry=$work/empty
    mkdir "$registry" && cargo new --quiet --vcs none "$program" || return
    printf 'nanorand = "0.7"\n[patch.crates-io]\nnanorand = { git = "file://%s" }\n' "$work/clone" >>"$program/Cargo.toml"
    printf 'fn main() {\n    println!("{:?}", nanorand::WyRand::new_seed(42));\n}\n' >"$program/src/main.rs"
    [ "$(cd "$program" && cargo run --quiet --config 'source.crates-io.replace-with="empty"' \
        --config "source.empty.directory=\"$registry\"")" = 'WyRand { seed: 0x2a }' ]
}

# What Debian's packages only recommend, such as graphics for Wine, takes longer to install than the packages themselves.
echo 'APT::Install-Recommends "false";' >"$work/apt"
export APT_CONFIG=$work/apt
if ! available cargo cargo rustc rustc; then
    skip_all 'the tests of the Rust packages' 'there is no cargo or no rustc'
fi

unit_tests 'tools/tests' python3 -W error -m unittest discover -s tools/tests
# Debian's rustc, an old version, may be installed beside a newer one.
available /usr/bin/rustc rustc /usr/bin/cargo cargo
other_targets
read -r command package < <(tools/uncovered.py --tools)
[ -z "$package" ] || available "$command" "$package"
copy_of_workspace "$work/copy"
part tests/targets.py
part env PATH="$(path_without_kit)" "$work/copy/tests/workspace.sh"
part env PATH="$(path_without_kit)" "$work/copy/tests/build_script.sh"
part env PATH="$(path_without_kit)" "$work/copy/tests/packed.sh"
if packages rand_core-0.6.; then
    adapter
else
    skip 'the adapter for rand_core' 'that crate is not there'
fi
part tests/drop_in.sh
benchmark
git clone --quiet . "$work/clone"
export CARGO_HOME=$work/cargo
step added_from_a_clone
! packages rand_core-0.6. >/dev/null || step adapter_from_a_clone
step installed_from_a_clone
step patched_from_a_clone
finish
