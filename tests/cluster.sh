#!/usr/bin/env bash
# Tests examples/cluster with the library that c/install builds: tests/cluster.sh. The last line is N passed, M failed.
#
# A loop in C, MPI with 1 and 4 processes and a job array must print the committed sums. Dask with 1 and 4 workers, and
# the loop over one generator in Python, must print the sums of the first 40 tasks; all tasks would take minutes.
# Killing a worker must not change the sums, and a part past the end of the period must be an error. The picture of the
# committed sums is the committed one. The programs of the README's section "Your own simulation" run as it says.
# shellcheck source=tests/lib.sh
source "$(dirname "${BASH_SOURCE[0]}")/lib.sh"
examples=$PWD/examples/cluster
trap end EXIT
unset ROOM PYTHONPATH
mkdir "$work/room" "$work/temporary"
warnings=(-std=c11 -O2 -Wall -Wextra -pedantic -Werror "-I$work/room/include")
# The index of the first part of the greatest length (2^64 - 1 draws) that ends past the period of 2^126 draws, and the
# sed command that makes all parts so long.
past_period=$((1 << 62))
long_parts='s/index, DRAWS)/index, UINT64_MAX)/'

# The running processes that this test started: their environment names its folder.
running() {
    grep -lsF "$work" /proc/[0-9]*/environ | cut -d / -f 3
}

# Ends the processes that an interrupted test left.
end() {
    local process
    for process in $(running); do
        kill -KILL "$process"
    done
    rm -rf "$work"
}

# Runs a command with what was built, and with all its files in the folder of this test. Otherwise Dask and Matplotlib
# would write into the user's folder.
in_room() {
    env ROOM="$work/room" TMPDIR="$work/temporary" DASK_CONFIG="$work/dask" DASK_TEMPORARY_DIRECTORY="$work" \
        MPLCONFIGDIR="$work/matplotlib" PYTHONDONTWRITEBYTECODE=1 timeout 600 "$@" </dev/null
}

# The case $1: the command succeeds, and its output ends with the table in the file $2. A progress bar may come before.
prints() {
    local case=$1 table=$2 status=0
    shift 2
    printf '== %s\n' "$case"
    in_room "$@" >"$work/printed" 2>"$work/errors" || status=$?
    if [ "$status" -ne 0 ]; then
        check "$case" "status $status: $(tail -n 5 "$work/errors")"
    else
        check "$case" "$(tail -n "$(wc -l <"$table")" "$work/printed" | sed '1s/.*side/side/' | diff - "$table")"
    fi
}

# The case $1: the command fails and prints the text $2.
refuses() {
    local case=$1 text=$2 status=0
    shift 2
    in_room "$@" >"$work/printed" 2>&1 || status=$?
    if [ "$status" -eq 0 ] || [ "$status" -eq 124 ] || ! grep -qF "$text" "$work/printed"; then
        check "$case" "status $status: $(tail -n 5 "$work/printed")"
    else
        check "$case" ''
    fi
}

# Runs test_percolation.py with these options of unittest.
percolation_tests() {
    (cd "$work/room" && PYTHONPATH=$work/room/python in_room /usr/bin/python3 "$examples/test_percolation.py" "$@")
}

# Runs test_own.py with these options of unittest.
own_tests() {
    (cd "$work/own" && PYTHONPATH=$work/room/python in_room /usr/bin/python3 "$examples/test_own.py" "$@")
}

# The loop in C, which takes a second, and the job array, which leaves no file behind if it is given no folder.
by_c() {
    prints 'a job array' "$table" "$examples/run" array
    prints 'the same jobs again' "$table" "$examples/run" array
    prints 'a loop in C' "$table" "$work/room/job" 0 1000
    prints 'the one command' "$table" env -u ROOM "$examples/run" array
    check 'files left behind' "$(ls -A "$work/temporary")"
    check 'no warnings in C' "$(cc "${warnings[@]}" -c -o /dev/null "$examples/percolation.c" 2>&1 &&
        cc "${warnings[@]}" -c -o /dev/null "$examples/job.c" 2>&1)"
    refuses 'a job without tasks' 'usage: ' "$work/room/job"
    refuses 'MPI without a number' 'usage: ' "$examples/run" mpi
}

# Builds the program $1 with the compiler $2, from sources that the sed command $3 changed, in the folder $work/changed.
changed() {
    mkdir -p "$work/changed"
    ln -sfn "$work/room/lib" "$work/changed/lib"
    cp "$examples"/*.[ch] "$work/changed"
    sed -i "$3" "$work/changed"/*.c
    check "$1, changed by $3" "$("$2" "${warnings[@]}" -o "$work/changed/$1" "$work/changed/$1.c" \
        "$work/changed/percolation.c" "$work/room/lib/libnanorand.a" -lm 2>&1)"
}

# Parts of the greatest length: one within the period, with the index 2^61, and one past it. A shuffle that fails.
refused_by_c() {
    changed job cc "$long_parts"
    check 'a part within the period' "$(in_room "$work/changed/job" $((past_period / 2)) 1 2>&1 >"$work/printed")"
    refuses 'a part past the period' "job: task $past_period failed with status 3" \
        "$work/changed/job" "$past_period" 1
    changed job cc 's/nanorand_pcg64_shuffle(/NANORAND_EXHAUSTED | &/'
    refuses 'a shuffle that fails' 'job: task 7 failed with status 2' "$work/changed/job" 7 1
}

by_mpi() {
    local processes
    if ! available mpirun openmpi-bin '/usr/lib/*/openmpi/include/mpi.h' libopenmpi-dev; then
        skip 'the examples by MPI' 'there is no Open MPI'
        return
    fi
    for processes in 1 4; do
        prints "MPI, $processes processes" "$table" "$examples/run" mpi "$processes"
    done
    changed mpi mpicc "$long_parts; s/(uint64_t)task,/$past_period * &/"
    refuses 'MPI, past the period' 'mpi: task 1 failed with status 3' \
        env ROOM="$work/changed" "$examples/run" mpi 2
    changed mpi mpicc 's/task < TASKS/task < 3/; s/print_table(all)/printf("side of %d\\n", processes)/'
    echo 'side of 3' >"$work/side"
    prints 'how many processes' "$work/side" env ROOM="$work/changed" "$examples/run" mpi 3
}

by_python() {
    if ! available '/usr/include/python3.*/Python.h' python3-dev \
        /usr/lib/python3/dist-packages/distributed python3-distributed \
        /usr/lib/python3/dist-packages/matplotlib python3-matplotlib; then
        skip "the examples by Python" "there is no Dask, no Matplotlib or no python3-dev"
        return
    fi
    in_room "$work/room/job" 0 40 >"$work/first"
    prints 'Dask, 4 workers' "$work/first" "$examples/run" dask --tasks 40 --picture "$work/room/first.svg"
    prints 'Dask, 1 worker' "$work/first" "$examples/run" dask --tasks 40 --workers 1
    unit_tests 'test_percolation.py' percolation_tests
    prints 'a loop in Python' "$work/first" "$examples/run" plain --tasks 40
    available /usr/lib/python3/dist-packages/mpi4py python3-mpi4py || true
    mkdir "$work/own"
    unit_tests 'test_own.py' own_tests
}

# The processes that do not end by themselves within a few seconds.
left_over() {
    for _ in {1..100}; do
        [ -n "$(running)" ] || return
        sleep 0.1
    done
    running
}

if ! available cc gcc rustc rustc; then
    skip_all 'the examples of a cluster' 'there is no cc or no rustc'
fi
table=$examples/percolation.out
by_c
refused_by_c
by_mpi
by_python
check 'the table of the README' "$(grep -xFf "$table" "$examples/README.md" | diff - "$table")"
check 'processes left' "$(left_over)"
finish
