#!/usr/bin/env bash
# Tests the program `draw` as a process, as built by the kit's two compilers and by cargo.
#
#     tests/draw.sh          tests all builds
#     tests/draw.sh cargo    tests only cargo's build
#     tests/draw.sh kit      tests only the kit's builds
#
# It makes the program end with each of its exit statuses, and compares standard output, standard error and the status.
# The last line is N passed, M failed.
# shellcheck source=tests/lib.sh
source "$(dirname "${BASH_SOURCE[0]}")/lib.sh"
# shellcheck source=tests/program.sh
source tests/program.sh

# Runs the program with the arguments after the first four, and compares the case $1 with the wanted status $2, standard
# output $3 and standard error $4.
run() {
    local name=$1 wanted=$2 out=$3 err=$4
    shift 4
    begin
    timeout 60 "$work/$compiler" "$@" </dev/null >"$work/out" 2>"$work/err" || status=$?
    end "$name" "$wanted" "$out" "$err"
}

seed=d29b42879be2895f
number=$'16646288086500911322\n'
hundred=()
for _ in {1..100}; do hundred+=(u64); done

texts() {
    run 'a number' 0 "$number" '' wyrand "$seed" plain 0 u64
    run 'items' 0 $'0\nitems: 0 1 2\n' '' wyrand d19b42879be2895f plain 3 u8
    run 'a buffer' 0 $'218\n40\n41140\n' '' wyrand "$seed" buffered 0 u8 u8 u16
    run 'an empty range' 0 $'empty\n218\n' '' wyrand "$seed" plain 0 u8:5..5 u8
    run 'items alone' 0 $'items: 0 1\n' '' wyrand "$seed" plain 0002
    run 'no text' 0 '' '' wyrand "$seed" plain 0
}

# Files that other programs have written in part: the program writes at the current position. `1<>` opens a file without
# emptying it.
streams_in_use() {
    begin
    printf '0123456789' >"$work/out"
    "$work/$compiler" wyrand "$seed" plain 0 u8 1<>"$work/out" 2>"$work/err" || status=$?
    end 'a file that holds more' 0 $'218\n456789' ''
    begin
    { printf 'first\n'; "$work/$compiler" wyrand "$seed" plain 0 u8 2>"$work/err" || status=$?; printf 'last\n'; } >"$work/out"
    end 'between what others write' 0 $'first\n218\nlast\n' ''
    begin
    printf 'first\n' >"$work/out"
    "$work/$compiler" wyrand "$seed" plain 0 u8 >>"$work/out" 2>"$work/err" || status=$?
    end 'after what is there' 0 $'first\n218\n' ''
    begin
    printf 'some input' >"$work/list"
    { "$work/$compiler" wyrand "$seed" plain 0 u8 >"$work/out" 2>"$work/err" || status=$?; cat >"$work/rest"; } <"$work/list"
    end 'an input' 0 $'218\n' ''
    count 'the input is not read' "$(differs_in 'the rest' rest 'some input')"
}

# The lines of tests/draw.txt: arguments, `> `, and the wanted text, with `|` for the end of a line, or what is written
# to standard error. The numbers without a range are those of tests/answers/definitions.py, and the first bytes of ChaCha
# are published.
tested_lines() {
    local line text words
    while IFS= read -r line; do
        text=$(tr '|' '\n' <<<"${line#*> }" && printf .)
        text=${text%$'\n.'}
        read -ra words <<<"${line%%> *}"
        case $text in
        draw:*) run "the line $line" 2 '' "$text" "${words[@]}" ;;
        *) run "the line $line" 0 "$text" '' "${words[@]}" ;;
        esac
    done <tests/draw.txt
}

# Each generator, mode, type and kind of bound. The expected checksum is that of the proved program's output.
every_request() {
    local zeros seeded mode type sum requests=(u128 i128 bool shuffle)
    printf -v zeros '%080d' 0
    for type in u8 u16 u32 u64 usize i8 i16 i32 i64 isize; do
        requests+=("$type" "$type":{..,5..,..100,..=100,7..=90,50..51,9..9,9..=8,0..1})
    done
    begin
    for seeded in "wyrand $seed" "pcg64 ${seed}0123456789abcdef" chacha{8,12,20}" $zeros"; do
        for mode in plain buffered; do
            # shellcheck disable=SC2086
            "$work/$compiler" $seeded "$mode" 20 "${requests[@]}" "${requests[@]}" 2>>"$work/err" || status=$?
        done
    done </dev/null >"$work/out"
    sum=$(sha256sum <"$work/out")
    count 'every request' "$(
        differs 'status' "$status" 0
        differs 'the sum' "${sum%% *}" 1aab8c79cac013e25e0832cb9296be752464ddee901d49f0aeb8ba6187018b93
        differs_in 'standard error' err ''
    )"
}

# Each generator and mode, with many counts of requests. The expected checksum is computed from the definitions.
every_number() {
    local zeros seeded mode count sum words=()
    printf -v zeros '%080d' 0
    for _ in {1..1250}; do words+=(u8 u16 u32 u64); done
    begin
    for seeded in "wyrand $seed" "pcg64 ${seed}0123456789abcdef" chacha{8,12,20}" $zeros"; do
        for mode in plain buffered; do
            for count in {0..40} {63..65} {127..129} {255..257} 1000 4096 5000; do
                # shellcheck disable=SC2086
                "$work/$compiler" $seeded "$mode" 0 "${words[@]:0:count}" 2>>"$work/err" || status=$?
            done
        done
    done </dev/null >"$work/out"
    sum=$(sha256sum <"$work/out")
    count 'every number of requests' "$(
        differs 'status' "$status" 0
        differs 'the sum' "${sum%% *}" "${sums[every_number]}"
        differs_in 'standard error' err ''
    )"
}

# Replaces this shell by the program, with more than 2^17 requests and then these. A shell that has held that many
# arguments is slow to start other programs.
run_many() {
    local words
    mapfile -t words < <(seq 131073 | sed 's/.*/u8/')
    exec timeout 60 "$work/$compiler" wyrand "$seed" plain 0 "${words[@]}" "$@"
}

# More than 2^17 requests. The expected checksum is computed from the definitions.
many_requests() {
    local sum
    begin
    (run_many) </dev/null >"$work/out" 2>"$work/err" || status=$?
    sum=$(sha256sum <"$work/out")
    count '131,073 requests' "$(
        differs 'status' "$status" 0
        differs 'the sum' "${sum%% *}" "${sums[many_requests]}"
        differs_in 'standard error' err ''
    )"
    begin
    (run_many u9) </dev/null >"$work/out" 2>"$work/err" || status=$?
    end 'argument 131,078' 2 '' $'draw: bad word 131078\n'
}

bad_arguments() {
    run 'no argument' 2 '' $'draw: bad word 1\n'
    run 'argument 1' 2 '' $'draw: bad word 1\n' WyRand $seed plain 0 u64
    run 'an option for argument 1' 2 '' $'draw: bad word 1\n' --help
    run 'another option for argument 1' 2 '' $'draw: bad word 1\n' --version
    run 'two dashes for argument 1' 2 '' $'draw: bad word 1\n' -- wyrand "$seed" plain 0 u64
    run 'an option for argument 5' 2 '' $'draw: bad word 5\n' wyrand "$seed" plain 0 --help
    run 'argument 2' 2 '' $'draw: bad word 2\n' wyrand d2 plain 0 u64
    run 'argument 3' 2 '' $'draw: bad word 3\n' wyrand "$seed" neither 0 u64
    run 'argument 4' 2 '' $'draw: bad word 4\n' wyrand "$seed" plain 1001 u64
    run 'a missing argument' 2 '' $'draw: bad word 4\n' wyrand "$seed" plain
    run 'argument 5, empty' 2 '' $'draw: bad word 5\n' wyrand "$seed" plain 0 ''
    run 'argument 6' 2 '' $'draw: bad word 6\n' wyrand "$seed" plain 0 u64 u9
    run 'argument 12' 2 '' $'draw: bad word 12\n' wyrand "$seed" plain 0 u8 u8 u8 u8 u8 u8 u8 u9
    run 'an argument that is no text' 3 '' $'draw: no memory\n' wyrand "$seed" plain 0 $'\xff'
    run 'argument 104' 2 '' $'draw: bad word 104\n' wyrand "$seed" plain 0 "${hundred[@]:1}" u9 u9
}

# Something strange in place of each argument, before it and after it: nothing, a space, line ends, a non-ASCII letter
# and digit, a byte order mark. Bytes that are not UTF-8 are an error before any argument is read.
strange_arguments() {
    local good=(wyrand "$seed" plain 3 u8 u16:..5 shuffle) words place strange word
    for place in {0..6}; do
        for strange in '' ' ' $'\r' $'\n' $'\xc3\xa9' $'\xef\xbb\xbf' $'\xef\xbc\x95'; do
            for word in "$strange" "$strange${good[place]}" "${good[place]}$strange"; do
                [ "$word" != "${good[place]}" ] || continue
                words=("${good[@]}")
                words[place]=$word
                run "argument $((place + 1)) $word" 2 '' "draw: bad word $((place + 1))"$'\n' "${words[@]}"
            done
        done
        words=("${good[@]}")
        words[place]+=$'\xff'
        run "argument $((place + 1)) no text" 3 '' $'draw: no memory\n' "${words[@]}"
        run "argument $((place + 1)) no text, a bad one first" 3 '' $'draw: no memory\n' '' "${words[@]}"
    done
}

# Standard output accepts no byte.
no_output() {
    local arguments=(wyrand "$seed" plain 0 u64)
    begin
    "$work/$compiler" "${arguments[@]}" </dev/null >/dev/full 2>"$work/err" || status=$?
    end 'standard output full' 4 '' $'draw: write failed\n'
    begin
    "$work/$compiler" "${arguments[@]}" </dev/null >&- 2>"$work/err" || status=$?
    end 'standard output closed' 4 '' $'draw: write failed\n'
    begin
    "$work/$compiler" "${arguments[@]}" <&- >&- 2>"$work/err" || status=$?
    end 'input and output closed' 4 '' $'draw: write failed\n'
    begin
    "$work/$compiler" "${arguments[@]}" </dev/null 1</dev/null 2>"$work/err" || status=$?
    end 'standard output only read' 4 '' $'draw: write failed\n'
    begin
    mkfifo "$work/pipe"
    exec 3<>"$work/pipe" 4>"$work/pipe" 3>&-
    (trap '' PIPE && exec "$work/$compiler" "${arguments[@]}" </dev/null >&4 2>"$work/err") || status=$?
    exec 4>&-
    rm "$work/pipe"
    end 'a pipe that nobody reads' 4 '' $'draw: write failed\n'
}

# Standard output accepts 1024 bytes. They must be the first 1024 bytes of the program's full text.
little_output() {
    local arguments=(wyrand "$seed" plain 1000 "${hundred[@]}") text
    text=$("$work/$compiler" "${arguments[@]}" </dev/null) || true
    count 'a long text' "$(differs 'the first line' "${text%%$'\n'*}" "${number%$'\n'}")"
    begin
    (
        trap '' XFSZ
        ulimit -f 1
        exec "$work/$compiler" "${arguments[@]}" </dev/null >"$work/out" 2>"$work/err"
    ) || status=$?
    end 'standard output full at last' 4 "${text:0:1024}" $'draw: write failed\n'
}

# Less and less memory, until the program does not start. With enough memory it writes its text. With less it ends with
# status 3 and writes nothing. With even less, the shell or the loader ends it.
little_memory() {
    local arguments=(wyrand "$seed" plain 0) kibibytes refused=0 text wrong=
    for _ in {1..9000}; do arguments+=(u8); done
    text=$("$work/$compiler" "${arguments[@]}" </dev/null && printf .) || true
    for ((kibibytes = 16000; kibibytes >= 1000; kibibytes -= 250)); do
        begin
        # prlimit, a small program, sets the limit. A shell with 9000 words may itself need more memory.
        {
            prlimit --as="$((kibibytes * 1024))" "$work/$compiler" "${arguments[@]}" \
                </dev/null >"$work/out" 2>"$work/err" || status=$?
        } 2>/dev/null
        case $status in
        0)
            wrong+=$(differs_in 'standard output' out "${text%.}")
            wrong+=$(differs_in 'standard error' err '')
            ;;
        3)
            refused=$((refused + 1))
            wrong+=$(differs_in 'standard output' out '')
            wrong+=$(differs_in 'standard error' err $'draw: no memory\n')
            ;;
        *) break ;;
        esac
    done
    [ "$refused" -gt 0 ] || wrong+=' it never runs out of memory;'
    [ "$status" -ge 126 ] || wrong+=" at last the status is $status;"
    count 'less and less memory' "$wrong"
}

# The outcome is the same if standard error accepts nothing.
no_errors() {
    begin
    "$work/$compiler" wyrand "$seed" plain 0 u9 </dev/null >"$work/out" 2>&- || status=$?
    end 'a bad argument, standard error closed' 2 '' ''
    begin
    "$work/$compiler" wyrand "$seed" plain 0 u9 </dev/null >"$work/out" 2>/dev/full || status=$?
    end 'a bad argument, standard error full' 2 '' ''
    begin
    "$work/$compiler" wyrand "$seed" plain 0 u64 </dev/null >/dev/full 2>/dev/full || status=$?
    end 'both full' 4 '' ''
    begin
    "$work/$compiler" wyrand "$seed" plain 0 u64 </dev/null >&- 2>&- || status=$?
    end 'both closed' 4 '' ''
    begin
    "$work/$compiler" wyrand "$seed" plain 0 u64 </dev/null >"$work/out" 2>&- || status=$?
    end 'a number, standard error closed' 0 "$number" ''
    begin
    "$work/$compiler" wyrand "$seed" plain 0 u64 </dev/null >"$work/out" 2>/dev/full || status=$?
    end 'a number, standard error full' 0 "$number" ''
}

builds_of draw
[ -n "$(builds)" ] || finish
declare -A sums
for name in every_number many_requests; do
    sums[$name]=$(tests/answers/draw_sums.py "$name")
done
for compiler in $(builds); do
    texts
    streams_in_use
    tested_lines
    every_request
    every_number
    many_requests
    bad_arguments
    strange_arguments
    no_output
    little_output
    little_memory
    no_errors
done
all_different
count 'lines of tests/draw.txt' "$(differs 'their number' "$(wc -l <tests/draw.txt)" 50)"
finish
