#!/usr/bin/env bash
# Tests the packages of the workspace with cargo only: tests/workspace.sh. NANORAND_OLDEST names the folder whose bin
# has the oldest supported compiler; the default is /usr. The last line is N passed, M failed.
# shellcheck source=tests/lib.sh
source "$(dirname "${BASH_SOURCE[0]}")/lib.sh"
library=rust/nanorand-proved
programs=(-p nanorand-program -p lots -p draw)
# With several units, rustc compiles inline functions in each of them, which takes a third more time.
export CARGO_PROFILE_RELEASE_CODEGEN_UNITS=1 CARGO_PROFILE_RELEASE_STRIP=debuginfo
oldest=$(sed -n 's/^rust-version = "\(.*\)"$/\1/p' Cargo.toml)

# The library's version, oldest compiler and license are those in its documents, and it has no dependency.
library_says_what_it_is() {
    local version
    version=$(sed -n 's/^version = "\(.*\)"$/\1/p' "$library/Cargo.toml")
    holds "CHANGELOG.md begins with the version $version" \
        [ "$(sed -nE 's/^## \[([0-9.]+)\] - .*/\1/p' "$library/CHANGELOG.md" | head -n 1)" = "$version" ] &&
        holds "README.md names Rust $oldest" grep -qF "Rust $oldest." "$library/README.md" &&
        holds "CHANGELOG.md names Rust $oldest" grep -qF "Rust $oldest or newer." "$library/CHANGELOG.md" &&
        holds 'the workspace has the license Zlib' grep -qx 'license = "Zlib"' Cargo.toml &&
        holds 'LICENSE is that of zlib' grep -qim 1 zlib "$library/LICENSE" &&
        holds 'Cargo.toml has no dependencies' eval '! grep -q dependencies "$library/Cargo.toml"'
}

# Runs a command, and if it fails prints which statement is false: holds STATEMENT COMMAND..
holds() {
    "${@:2}" || { echo "it does not hold that $1"; return 1; }
}

# The package $1 inherits the shared settings from the workspace, and depends only on packages of this repository.
shares_what_the_workspace_says() {
    local manifest=rust/$1/Cargo.toml word
    for word in edition rust-version license repository; do
        grep -qxF "$word.workspace = true" "$manifest" || return
    done
    [ "$(sed -n '/^\[lints\]$/,$p' "$manifest")" = $'[lints]\nworkspace = true' ] &&
        ! sed '1,/^\[dependencies\]$/d; /^$/,$d' "$manifest" | grep -vF 'path = "../'
}

# The package $1, which is outside the workspace, has the same settings as the workspace.
agrees_with_the_workspace() {
    local word
    for word in edition rust-version license; do
        grep -qxF "$(grep "^$word = " Cargo.toml)" "rust/$1/Cargo.toml" || return
    done
}

# The program $1 has a README that says how to install it, and the license.
has_a_page() {
    cmp "$library/LICENSE" "rust/$1/LICENSE" && grep -qF "cargo install --git URL $1" "rust/$1/README.md"
}

# What the compiler says of a function with these statements.
said_of() {
    rustc --edition 2021 --crate-type lib --emit metadata --out-dir target/hints - \
        --extern nanorand_proved=target/debug/libnanorand_proved.rlib 2>&1 \
        <<<"use nanorand_proved::*; pub fn f(rng: &mut WyRand) { $1 }"
}

# Mistakes, each after a `>`, and below it what the compiler has to hint at.
hints() {
    cat <<'END'
> let _: &str = rng.generate();
values of the type `&str` cannot be drawn
for a type of your own, implement `RandomGen`
for a collection, draw its items: `rng.generate_iter().take(n).collect()`
for one of several values, call `rng.choose(&values)`
> struct Card; let _: Card = rng.generate();
for a type of your own, implement `RandomGen`
> let _: Vec<u8> = rng.generate();
for a collection, draw its items: `rng.generate_iter().take(n).collect()`
> let _ = rng.range(String::new()..);
`String` has no ranges
for a type of your own, implement `RandomRange`
for other types, draw a number and convert it; for a time, add a random `Duration`
> #[derive(Clone)] struct Card; let _ = rng.range(Card..);
for a type of your own, implement `RandomRange`
> fn g<R: Rng>(_: R) {} g(ChaCha20Stream::seed_from_u64(1));
`BufferedRng<ChaChaGroups<20>, 512>` is not a generator with blocks of 8 bytes
`R: Rng` alone is `R: Rng<8>`; `R: AnyRng` takes any generator: call `rng.rng().range(1..=6)`
> fn g<T>(rng: &mut dyn AnyRng) -> T { rng.generate() }
values of the type `T` cannot be drawn from a `dyn AnyRng`
for a type parameter, write the bound `T: AnyValue`
for a type of your own, implement `RandomGen` for all generators
for a collection, draw its items: `rng.generate_iter().take(n).collect()`
> fn g<T: Clone>(rng: &mut dyn AnyRng, one: T) -> T { rng.range(one..) }
a `dyn AnyRng` draws no numbers from ranges of the type `T`
for a type parameter, write the bound `T: AnyRange`
for a type of your own, implement `RandomRange` for all generators, and `Clone`
> struct Own; fn g<R: AnyRng>(_: R) {} g(Own);
an `Rng` of your own is lent by `rng.as_any()`, or implements `AnyRng` by its `fill_bytes`
END
}

# The compiler hints at the right way where a program asks for what a type does not have.
hints_at_mistakes() {
    local line said missing=0
    cargo build --quiet --offline -p nanorand-proved
    while read -r line; do
        case $line in
        '> '*) said=$(said_of "${line#> }" | sed -E 's/^(error\[E0277\]:| *= note:) //') ;;
        *) grep -qxF "$line" <<<"$said" || { echo "no hint: $line"; missing=1; } ;;
        esac
    done < <(hints)
    return "$missing"
}

# Each message and note of the library is one of these hints.
hints_are_all() {
    local text
    while read -r text; do
        hints | grep -qxE "$text" || { echo "no mistake leads to: $text"; return 1; }
    done < <(grep -rhoE '\b(message|note|label) = "[^"]+"' "$library/src" |
        sed -E 's/^\w+ = "(.*)"$/\1/; s/[][().*+?|^$]/\\&/g; s/\{\w+\}/.+/g')
}

# The compiler recommends the type and the bound of the call, and not what the implementation for all types asks for.
recommends_what_is_called() {
    local hint code
    while IFS='|' read -r hint code; do
        grep -qF "$hint" <<<"$(said_of "$code")" || { echo "not recommended: $hint"; return 1; }
    done <<'END'
values of the type `(u8, Card)` cannot be drawn|struct Card; let _: (u8, Card) = rng.generate();
<T: nanorand_proved::AnyValue>|fn g<T>(rng: &mut dyn AnyRng) -> T { rng.generate() }
<T: Clone + nanorand_proved::AnyRange>|fn g<T: Clone>(rng: &mut dyn AnyRng, one: T) -> T { rng.range(one..) }
END
}

# Links a program without std with the library without its feature std. If std were linked, its panic handler would be a
# second one, which is an error. Warnings are failures.
library_without_std() {
    local folder=target/without_std
    cargo rustc --offline -p nanorand-proved --lib --no-default-features --target-dir "$folder" -- -D warnings &&
        rustc --edition 2021 --crate-type staticlib -C panic=abort -o "$folder/program.a" \
            -L "dependency=$folder/debug/deps" --extern nanorand_proved="$folder/debug/libnanorand_proved.rlib" \
            "$library/tests/without_std/program.rs"
}

# Links a library without std with lots without its feature std.
lots_without_std() {
    local folder=target/without_std
    cargo rustc --offline -p lots --lib --no-default-features --target-dir "$folder" -- -D warnings &&
        rustc --edition 2021 --crate-type staticlib -C panic=abort -o "$folder/lots.a" \
            -L "dependency=$folder/debug/deps" --extern "lots=$folder/debug/liblots.rlib" - <<'END'
#![no_std]
#[panic_handler]
fn panic(_: &core::panic::PanicInfo) -> ! {
    loop {}
}
#[no_mangle]
pub extern "C" fn draw(places: &mut [usize; 9]) -> u8 {
    lots::draw_places("a seed", places, 1).map_or_else(lots::LotsError::status, |()| 0)
}
END
}

# Only two files of the library have unsafe code, whatever the attributes say, and their numbers of unsafe blocks and
# functions, without the tests at their ends, are those in the table of the README.
unsafe_as_the_readme_says() {
    local file code
    [ "$(cd "$library" && grep -rlw unsafe src | sort)" = $'src/simd.rs\nsrc/system.rs' ] || return
    for file in simd system; do
        code=$(sed -E '/^#\[cfg\((test|all\(test, unix\))\)\]$/,$d' "$library/src/$file.rs" | grep -vE '^ *//')
        grep -F "| \`src/$file.rs\` | $(grep -c 'unsafe {' <<<"$code") | $(grep -c 'unsafe fn' <<<"$code") |" \
            "$library/README.md" || { echo "README.md has other numbers for $file.rs"; return 1; }
    done
}

# Each package has documentation without warnings, also without std.
documented() {
    local name
    for name in nanorand-proved nanorand-program lots draw; do
        cargo doc --offline --no-deps -p "$name" || return
    done
    for name in nanorand-proved lots; do
        cargo doc --offline --no-deps -p "$name" --no-default-features || return
    done
}

# The run-time check asks for exactly the features that the code is compiled for. Running it cannot show this, because a
# processor with AVX2 passes any such check.
asks_for_what_it_uses() {
    local found
    found=$(grep -oE '(enable = |detected!\(|target_feature = )"[a-z0-9.]+"' "$library/src/simd.rs" |
        grep -oE '"[^"]*"' | grep -vE 'sse2|neon' | sort -u)
    [ "$found" = '"avx2"' ] && is_compiled_for_avx2
}

# Each function for AVX2 is compiled for it. Without the attribute it would still work, but take forty times as long.
is_compiled_for_avx2() {
    [ "$(grep -c 'unsafe fn [a-z_]*with_avx2' "$library/src/simd.rs")" = 2 ] &&
        [ "$(grep -B 1 'unsafe fn [a-z_]*with_avx2' "$library/src/simd.rs" |
            grep -c '#\[target_feature(enable = "avx2")\]')" = 2 ]
}

# Tests of several packages share files by copies, since each package is packed alone and `rt ci` refuses links. Copies
# are equal to the file of the same name in nanorand-program or nanorand-proved.
copies_are_equal() {
    local file source
    for file in rust/{draw,lots,nanorand-program,nanorand-drop-in}/tests/common/*.rs; do
        for source in rust/nanorand-{program,proved}/tests/common/"${file##*/}"; do
            [ ! -e "$source" ] || cmp "$file" "$source" || return
        done
    done
}

# The library's package has what its users need, and every file that its code, benchmarks, examples and tests consist of.
packs_what_it_should() {
    local file
    cargo package --offline --allow-dirty --quiet --list -p nanorand-proved >target/packed || return
    (cd "$library" && find LICENSE README.md CHANGELOG.md build.rs src benches examples tests -type f) |
        while read -r file; do
            grep -qxF "$file" target/packed || { echo "the package lacks $file"; return 1; }
        done
}

# Runs cargo's tests, and records in this target folder which code they run. If the tools of the compiler's LLVM are not
# there, it only runs the tests. Tests in one thread do not wait for each other's counters, which saves a third of the
# processor time.
covered() {
    if [ -n "$can_count" ]; then
        cargo_tests env RUST_TEST_THREADS=1 RUSTFLAGS=-Cinstrument-coverage LLVM_PROFILE_FILE="$1/profiles/%m-%p.profraw" \
            cargo test --offline --target-dir "$1" "${@:2}"
    else
        cargo_tests cargo test --offline "${@:2}"
    fi
}

# The names of the library's doctests, with these arguments of cargo.
doctests() {
    cargo test --offline --doc -p nanorand-proved "$@" -- --list | sed -n 's/: test$//p' | grep .
}

# Runs the doctests of the items that have doctests only with the library's feature std. All others run without it. A
# name is a file, a dash, the item and a line; rustdoc splits what it is given at the spaces.
doctests_of_std() {
    local items
    doctests >target/doctests && doctests --no-default-features >target/doctests_without || return
    mapfile -t items < <(grep -vxFf target/doctests_without target/doctests | cut -d ' ' -f 3 | sort -u)
    cargo test --offline --doc -p nanorand-proved -- "${items[@]}"
}

# Fails for any code in these folders that no test has run.
all_covered() {
    if [ -n "$can_count" ]; then
        part tools/uncovered.py "$@"
    else
        skip 'whether tests run all code' "there is no ${counter%% *}"
    fi
}

# Compares the table of answers with the oldest compiler, unless that is the compiler of the other tests, and compiles
# the programs for each target whose std is there. tests/packed.sh runs the tests of the packages with this compiler.
by_the_oldest() {
    local words=(env "RUSTC=$oldest_bin/rustc" "RUSTDOC=$oldest_bin/rustdoc" "$oldest_bin/cargo") std target
    is_version "$oldest" rustc ||
        cargo_tests "${words[@]}" test --offline -p nanorand-answers --target-dir target/oldest
    for std in "${oldest_bin%/bin}"/lib/rustlib/*/lib/libstd-*.rlib; do
        target=${std#*/lib/rustlib/}
        step "${words[@]}" check --offline "${programs[@]}" --target-dir target/oldest --target "${target%%/*}"
    done
    part tests/targets.sh
}

step library_says_what_it_is
for name in nanorand-proved nanorand-answers nanorand-program lots draw; do
    step shares_what_the_workspace_says "$name"
done
for name in nanorand-c nanorand-drop-in nanorand-rand-core; do
    step agrees_with_the_workspace "$name"
done
step has_a_page lots
step has_a_page draw
clippy_and_format --workspace --all-targets
RUSTDOCFLAGS='-D warnings' step documented
coverage=$PWD/target/coverage
# What counts the code that tests run, and whether it is there.
if counter=$(tools/uncovered.py --tools); then can_count=yes; else can_count=; fi
rm -rf "$coverage/profiles"
# Fewer states and cases for the vectors than below, where they are optimized.
NANORAND_STATES=1000 covered "$coverage" -p nanorand-proved -p nanorand-answers --lib --tests
# With some optimization, which keeps the checks of a debug build, three tests of `lots` take 4 instead of 94 seconds.
# Those of the library would take longer, as most of their time is that of the compiler.
CARGO_PROFILE_DEV_OPT_LEVEL=1 covered "$coverage" "${programs[@]}" --lib --bins --tests
# Optimized: the tests of the vectors. Without std, the file with vectors asks the processor itself.
optimized=(--release -p nanorand-proved --no-default-features --lib)
NANORAND_STATES=200 covered "$coverage" "${optimized[@]}"
sources=(rust/{nanorand-program,lots,draw}/src)
# Its tests compare the answer with that of std, on processors with AVX2, without it, without AVX, and on one whose
# system does not save the vectors of AVX.
if ! grep -qw avx2 /proc/cpuinfo 2>/dev/null; then
    skip 'whether tests run all code of the library' 'this processor has no AVX2'
elif ! available qemu-x86_64 qemu-user; then
    skip 'processors without AVX2, and whether tests run all code of the library' 'there is no qemu-x86_64'
else
    sources+=("$library/src")
    for processor in max max,-avx2 max,-avx max,-xsave Nehalem; do
        NANORAND_STATES=200 covered "$coverage" "${optimized[@]}" \
            --config "target.\"cfg(all())\".runner=[\"qemu-x86_64\", \"-cpu\", \"$processor\"]" -- simd::
    done
fi
all_covered "$coverage" "${sources[@]}"
# There are a million states for each vector body that this machine has.
cargo_tests env NANORAND_STATES=1000000 cargo test --offline "${optimized[@]}" --test chacha_lanes
# With std: all other tests but `behaviour` and `calls`, which take minutes to compile, and doctests, which no profile
# optimizes. tests/packed.sh runs these two without the checks of a debug build.
cargo_tests cargo test --offline --release -p nanorand-proved -p nanorand-answers --test answers --test getrandom \
    --test no_file --test refused --test streams
# The unit tests of the other file with unsafe code. It compiles alone, but some functions then have no caller.
step rustc --edition 2021 -O --test --cfg 'feature="std"' -A dead_code --out-dir target "$library/src/system.rs" &&
    cargo_tests target/system
cargo_tests cargo test --offline --doc "${programs[@]}"
cargo_tests cargo test --offline --no-default-features --doc -p nanorand-proved
cargo_tests doctests_of_std
step cargo check --offline --no-default-features --all-targets -p nanorand-proved
cargo_tests cargo test --offline --no-default-features -p lots
step library_without_std
step lots_without_std
step unsafe_as_the_readme_says
step asks_for_what_it_uses
minor=$(rustc --version | sed -nE 's/^rustc 1\.([0-9]+)\..*/\1/p')
step hints_are_all
if [ "$minor" -ge 78 ]; then
    step hints_at_mistakes
else
    echo 'skipped: hints at mistakes, which rustc has from 1.78 on'
fi
if [ "$minor" -ge 85 ]; then
    step recommends_what_is_called
else
    echo 'skipped: what is recommended, which rustc has from 1.85 on'
fi
if is_version "$oldest" "$oldest_bin/rustc"; then
    by_the_oldest
else
    skip "rustc $oldest, the oldest that Cargo.toml names, and other targets" "$oldest_bin has none"
fi
for example in "$library"/examples/*.rs; do
    step cargo run --offline --quiet -p nanorand-proved --example "$(basename "$example" .rs)"
done
step cargo package --offline --allow-dirty --quiet -p nanorand-proved
step copies_are_equal
step packs_what_it_should
# The unit tests of both files with unsafe code, as they were optimized above. The one that is skipped takes 4 GiB.
if available valgrind valgrind; then
    cargo_tests env NANORAND_STATES=200 cargo test --offline "${optimized[@]}" \
        --config 'target."cfg(all())".runner=["valgrind", "--quiet", "--error-exitcode=9"]' -- --test-threads=1
    cargo_tests valgrind --quiet --error-exitcode=9 target/system --test-threads=1 --skip more_than_4_gibibytes
else
    skip 'the unsafe code under valgrind' 'it is not there'
fi
if cargo miri --version >/dev/null 2>&1; then
    cargo_tests cargo miri test --offline --lib -p nanorand-proved
else
    skip 'Miri' 'it is not there'
fi
finish
