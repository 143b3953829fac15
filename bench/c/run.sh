#!/usr/bin/env bash
# Measures both static libraries, cargo's and the kit's, and compares them with generators that are inlined in C, and
# with ChaCha20 of libsodium if that is installed: bench/c/run.sh.
#
# It prints the nanoseconds per item for each work, as medians of the turns, and for each library the median of its time
# divided by that of the other generator in the same turn. The kit's library is used as it was last built. CC names the
# compiler.
#
# The speed of a short loop depends on its address, so each loop begins at the start of a cache line.
set -euo pipefail
unset CDPATH # otherwise `cd` may go elsewhere
cd "$(dirname "$0")/../.."
work=$(mktemp -d)
trap 'rm -rf "$work"' EXIT
turns=21
kit=crates/nanorand_c/out/libnanorand_c.a
flags=(-std=c11 -O2 -falign-loops=64 -falign-functions=64 -Ic/include)
linked=()
if [ -e /usr/include/sodium.h ]; then
    flags+=(-DSODIUM)
    linked=(-lsodium)
else
    echo 'skipped: libsodium, as there is no /usr/include/sodium.h (to install: libsodium-dev)'
fi

PREFIX=$work c/install
"${CC:-cc}" "${flags[@]}" -c -o "$work/bench.o" bench/c/bench.c
"${CC:-cc}" -o "$work/cargo" "$work/bench.o" "$work/lib/libnanorand.a" "${linked[@]}"
libraries=(cargo)
if [ ! -e "$kit" ]; then
    echo "skipped: the kit's library, as there is no $kit"
elif "${CC:-cc}" -o "$work/kit" "$work/bench.o" "$kit" "${linked[@]}" 2>"$work/errors"; then
    libraries+=(kit)
else
    echo "skipped: the kit's library, as $kit is not of this header"
fi

# The libraries take turns, so that a busy moment of the machine affects both. Each line has the work, who does it, its
# time, and the time divided by that of the other generator in this turn. The other generator comes first.
for ((turn = 0; turn < turns; turn++)); do
    for library in "${libraries[@]}"; do
        "$work/$library" | awk -F '\t' -v OFS='\t' -v library="by $library" '
            $1 != work { work = $1; other = $3 }
            { print $1, $2 == "called" ? library : $2, $3, $3 / other }' >>"$work/times"
    done
done
# The medians, in the order of the first turn.
awk -F '\t' '!seen[$1, $2]++ { print $1 "\t" $2 }' "$work/times" | while IFS=$'\t' read -r name side; do
    median() {
        awk -F '\t' -v name="$name" -v side="$side" -v column="$1" '$1 == name && $2 == side { print $column }' \
            "$work/times" | sort -g | awk '{ times[NR] = $1 } END { print times[int((NR + 1) / 2)] }'
    }
    printf '%-24s %-10s %7.2f ns %6.2f\n' "$name" "$side" "$(median 3)" "$(median 4)"
done
