#!/usr/bin/env bash
# Compares the speed of the Rust crate with the old one, nanorand 0.7.0, and prints a table:
#
#     bench/rust/run.sh FOLDER [programs] [RUNS]
#
# For example, bench/rust/run.sh ~/nanorand-0.7.0. FOLDER has the old crate (Cargo.toml and src/). It is used in place;
# nothing of it is copied.
#
# Without `programs`, each work is in a function of its own, with its generator in a variable. With it, each work is
# measured in every context in which a program keeps a generator (programs/contexts.rs), with the profiles in
# NANORAND_PROFILES. The default is release, fat (lto "fat", one codegen unit) and dev.
#
# The script also measures rand 0.8, rand_chacha 0.3, rand_pcg 0.3 and fastrand 1.8 if the folder NANORAND_PEERS has
# them. It is a cargo directory registry. The default is the one that Debian's packages
# librust-{rand,rand-chacha,rand-pcg,fastrand}-dev install. Without these crates their columns are empty.
#
# NANORAND_TIMED=drop_in measures the drop-in instead of the library.
#
# All are compiled into one program as a user would compile them: for the default processor, with opt-level 3, lto "fat"
# and one codegen unit (with NANORAND_LTO=off: the defaults of cargo's release profile).
#
# The speed of a short loop depends on its position in the 64-byte lines that a processor reads. All functions begin at
# multiples of 16 bytes. So the program is linked four times, each time with all its code 16 bytes further on: each loop
# of each crate is measured at each position that it can have.
set -euo pipefail
unset CDPATH # otherwise `cd` may go elsewhere
here=$(cd "$(dirname "${BASH_SOURCE[0]}")" && pwd)
original=$(cd "${1:?a folder with nanorand 0.7.0}" && pwd)
program=speed
[ "${2:-}" != programs ] || { program=programs; shift; }
runs=${2:-5}
registry=${NANORAND_PEERS:-/usr/share/cargo/registry}
shifts="0 16 32 48"

rust=$(realpath "$here/../../rust")
target=${CARGO_TARGET_DIR:-$rust/../target}
work=$target/$program
mkdir -p "$work/works"

# The peers that are measured: their entries for a manifest, and their names and versions.
peers=() versions=()
for peer in rand-0.8.\* rand_chacha-0.3.\* rand_pcg-0.3.\* fastrand-1.8.\*; do
    found=$(compgen -G "$registry/$peer" | head -n 1) || { peers=() versions=(); break; }
    versions+=("$(basename "$found")")
    peers+=("${peer%%-*} = { version = \"${peer#*-}\"$([ "${peer%%-*}" != rand ] || echo ', features = ["small_rng"]') }")
done
options=(--offline)
[ ${#peers[@]} -eq 0 ] || options+=(--features peers --config 'source.crates-io.replace-with="peers"'
    --config "source.peers.directory=\"$registry\"")

# Prints the part that the manifests of all packages share: package NAME.
package() {
    cat <<END
[package]
name = "$1"
version = "0.1.0"
edition = "2021"
publish = false

[dependencies]
nanorand = { path = "$original", features = ["chacha", "pcg64", "wyrand"] }
nanorand-proved = { path = "$rust/nanorand-proved" }
$(printf '%s\n' "${peers[@]}")
END
}

# Writes the program of all works, each in a function of its own.
write_speed() {
    options+=(--features "${NANORAND_TIMED:-library}")
    cat > "$work/Cargo.toml" <<END
$(package speed)
drop_in = { package = "nanorand", path = "$rust/nanorand-drop-in", optional = true }

[features]
library = []
peers = []

[[bin]]
name = "speed"
path = "$here/speed.rs"

[profile.release]
opt-level = 3
$1

[workspace]
END
}

# Writes the program of all contexts, and the crate of the works.
write_programs() {
    cat > "$work/works/Cargo.toml" <<END
$(package works)

[features]
peers = []

[lib]
path = "$here/programs/works.rs"
END
    cat > "$work/Cargo.toml" <<END
$(package programs)
works = { path = "works" }

[features]
peers = ["works/peers"]

[[bin]]
name = "programs"
path = "$here/programs/program.rs"

[profile.release]
opt-level = 3
$1

[workspace]
END
}

# Builds the program once for each position of its code: build PROFILE LTO.
build() {
    local shift place folder=${1/dev/debug}
    "write_$program" "$2"
    for shift in $shifts; do
        # The code begins above all other sections.
        place=$(printf '0x%x' $((0x1000000 + shift)))
        (cd "$here" && cargo rustc --quiet "${options[@]}" --profile "$1" --manifest-path "$work/Cargo.toml" \
            --target-dir "$target" --bin "$program" -- -C "link-arg=-Wl,--section-start=.text=$place")
        cp "$target/$folder/$program" "$work/$program$shift"
    done
}

# The builds take turns, so that a busy moment of the machine affects all builds.
time_builds() {
    local shift
    rm -f "$work"/times*
    for _ in $(seq "$runs"); do
        for shift in $shifts; do
            "$work/$program$shift" >> "$work/times$shift"
        done
    done
    "$work/${program}0" table "$work"/times*
}

fat='lto = "fat"
codegen-units = 1'
printf '%s; %s; %s\n' "$(sed -n 's/^model name[^:]*: //p' /proc/cpuinfo | head -n 1)" "$(rustc --version)" \
    "${versions[*]:-no peers}"
if [ "$program" = speed ]; then
    [ "${NANORAND_LTO:-fat}" != off ] || fat=
    build release "$fat"
    time_builds
    exit
fi
for profile in ${NANORAND_PROFILES:-release fat dev}; do
    case $profile in
        release) build release "" ;;
        fat) build release "$fat" ;;
        dev) build dev "" ;;
        *) echo "no profile: $profile"; exit 2 ;;
    esac
    printf '\n%s profile. ' "$profile"
    time_builds
done
