#!/usr/bin/env bash
# Tests the program `lots` as a process, as built by the kit's two compilers and by cargo.
#
#     tests/lots.sh          tests all builds
#     tests/lots.sh cargo    tests only cargo's build
#     tests/lots.sh kit      tests only the kit's builds
#
# It makes the program end with each of its exit statuses but 8, and compares standard output, standard error and the
# status. Then tests/second_opinion.py compares all builds with the Python code of docs/LOTS.md, and
# tests/compare_records.py compares their records with those of tests/records.py. The last line is N passed, M failed.
#
# Status 8 is not tested here. It means that 128 random 64-bit words in a row were rejected, and no seed with such words
# is known.
# shellcheck source=tests/lib.sh
source "$(dirname "${BASH_SOURCE[0]}")/lib.sh"
# shellcheck source=tests/program.sh
source tests/program.sh

# Runs the program with the list $2 and the arguments after the first five, and compares the case $1 with the wanted
# status $3, standard output $4 and standard error $5.
run() {
    local name=$1 list=$2 wanted=$3 out=$4 err=$5
    shift 5
    printf '%b' "$list" >"$work/list"
    begin
    timeout 60 "$work/$compiler" "$@" <"$work/list" >"$work/out" 2>"$work/err" || status=$?
    end "$name" "$wanted" "$out" "$err"
}

usage='lots: usage: lots SEED COUNT|all < entrants\n'
letters='a\nb\nc\nd\ne\nf\ng\nh\ni\nj\n'

# The expected lines are those that the Python code draws.
texts() {
    run 'ten letters' "$letters" 0 'h\na\ne\nj\nb\nf\nd\ni\nc\ng\n' '' 'a seed' all
    run 'three of ten' "$letters" 0 'h\na\ne\n' '' 'a seed' 3
    run 'ten of ten' "$letters" 0 'h\na\ne\nj\nb\nf\nd\ni\nc\ng\n' '' 'a seed' 10
    run 'a seed of other letters' "$letters" 0 'c\nj\nf\nb\ng\ne\nd\na\ni\nh\n' '' 'Zürich, 1. März' all
    run 'a seed of 100 bytes' "$letters" 0 'j\nd\ni\nf\na\nh\ng\nc\nb\ne\n' '' "$(printf '%0100d' 0)" all
    run 'a seed that looks like an option' "$letters" 0 'e\ni\nc\nh\nj\nb\nf\na\nd\ng\n' '' --help all
    run 'a seed of a line feed' "$letters" 0 'h\ne\na\nb\nj\nc\nf\nd\ng\ni\n' '' $'\n' all
    run 'a seed of one space' "$letters" 0 'd\ng\nj\nf\na\nb\nc\ni\nh\ne\n' '' ' ' all
    run 'none of ten' "$letters" 0 '' '' seed 0
    run 'all of none' '' 0 '' '' seed all
    run 'none of none' '' 0 '' '' seed 0
    run 'all of one' 'only\n' 0 'only\n' '' seed all
    run 'one of one' 'only\n' 0 'only\n' '' seed 1
    run 'none of one' 'only\n' 0 '' '' seed 0
    run 'all of two' 'a\nb\n' 0 'b\na\n' '' seed all
    run 'one of two' 'a\nb\n' 0 'b\n' '' seed 1
}

# The record of the example in docs/LOTS.md without its first two lines, and its list and seed.
twelve='Ada\nBarbara\nChidi\nDmitri\nElif\nFarid\nGrace\nHedy\nInes\nJun\nKatherine\nLise\n'
throws='4 1 6 3 3 2 5 6 1 4 2 6 5 3 1 1 6 2 4 5'
rest="seed: \"$throws\"
list SHA-256: 32230fec7f4d73fc1dc4888e4bd9becc094a248cb2098b991ab26c2ef227e860
entrants: 12
drawn: 3
result SHA-256: d44df65b613f78f8bb637295ecfbaf57109d9ec26487514c036dc826f6757939
1: \"Katherine\"
2: \"Jun\"
3: \"Chidi\"
end of the record
"
named='nanorand public draw 2\nannouncement SHA-256: '
example="${named}none\n$rest"
empty_sum=e3b0c44298fc1c149afbf4c8996fb92427ae41e4649b934ca495991b7852b855
agrees='the record agrees with the list; no announcement was compared\n'
agrees_too='the record agrees with the list, and names the announcement\n'
other_list='lots: the record is that of a draw from another list\n'
unannounced='lots: the announcement does not fit this list and the number of entrants drawn\n'

# The texts of the announcement of the example: the occasion, and those that stand after the numbers.
occasion='Summer raffle of the school'
seed_texts=('20 throws of a die, in the hall' 'the numbers thrown, in order, with one space between them' "$throws"
    'Friday 4 December 2026, 12:00, Madrid')

# Prints the announcement of the example with $1 winners and $2 reserves.
announcement_of() {
    cat <<END
nanorand announcement 1
occasion: "$occasion"
list SHA-256: 32230fec7f4d73fc1dc4888e4bd9becc094a248cb2098b991ab26c2ef227e860
entrants: 12
winners: $1
reserves: $2
seed source: "${seed_texts[0]}"
seed form: "${seed_texts[1]}"
seed example: "${seed_texts[2]}"
time: "${seed_texts[3]}"
end of the announcement
END
}

# The files that the cases of records name.
files() {
    printf '%b' "$example" >"$work/record"
    announcement_of 2 1 >"$work/announcement"
    printf 'On Friday at noon.\n' >"$work/noon"
    : >"$work/empty"
    sum=$(sha256sum <"$work/announcement")
    sum=${sum%% *}
    printf '%b' "$named$sum\n$rest" >"$work/full"
}

# Announcements of the example with other numbers, each wrong one, and each text empty.
announcements() {
    local place numbers entrants values
    run 'an announcement' "$twelve" 0 "$(announcement_of 3 1)\n" '' --announce "$occasion" 3 1 "${seed_texts[@]}"
    run 'an announcement of all' "$twelve" 0 "$(announcement_of 12 0)\n" '' --announce "$occasion" 12 0 "${seed_texts[@]}"
    run 'an announcement, zeros in front' "$twelve" 0 "$(announcement_of 1 11)\n" '' \
        --announce "$occasion" 0001 0000000000000000000000011 "${seed_texts[@]}"
    run 'an announcement of odd texts' 'a\n' 0 'nanorand announcement 1
occasion: " "\\x5c\\x0a\\xc2\\xa0\\xe2\\x80\\x8d"
list SHA-256: 87428fc522803d31065e7bce3cf03fe475096631e5e07bbd7a0fde60c4cf25c7
entrants: 1\nwinners: 1\nreserves: 0\nseed source: """\nseed form: "\\x5cx41"\nseed example: " "
time: "a\\x0aend of the announcement\\x0a"\nend of the announcement\n' '' \
        --announce $' "\\\n\xc2\xa0\xe2\x80\x8d' 1 0 '"' '\x41' ' ' $'a\nend of the announcement\n'
    for numbers in '12 1' '13 0' '1 12' '0012 01'; do
        read -r -a values <<<"$numbers"
        run "an announcement of $numbers, too many" "$twelve" 3 '' 'lots: 12 entrants, 13 asked for\n' \
            --announce "$occasion" "${values[@]}" "${seed_texts[@]}"
    done
    for numbers in '18446744073709551615 0' '1 18446744073709551615' '18446744073709551615 18446744073709551615' \
        '18446744073709551615 13' '13 18446744073709551615'; do
        read -r -a values <<<"$numbers"
        run "an announcement of $numbers, far too many" "$twelve" 3 '' \
            'lots: 12 entrants, 18446744073709551615 asked for\n' \
            --announce "$occasion" "${values[@]}" "${seed_texts[@]}"
    done
    run 'an announcement of none' '' 3 '' 'lots: 0 entrants, 1 asked for\n' --announce a 1 0 b c d e
    run 'an announcement, an empty line' 'a\n\n' 4 '' 'lots: line 2 is empty\n' --announce a 9 0 b c d e
    for numbers in '0 0' '0 1' '00 1' 'all 0' '1 all' '+1 0' '1 +1' '-1 0' '1 -1' '1.0 0' '1 x' \
        '18446744073709551616 0' '1 18446744073709551616'; do
        read -r -a values <<<"$numbers"
        run "an announcement of $numbers" "$twelve" 2 '' "$usage" \
            --announce "$occasion" "${values[@]}" "${seed_texts[@]}"
    done
    for place in 0 1 2 3 4 5 6; do
        values=(a 1 0 b c d e)
        values[place]=
        run "an announcement whose value $place is empty" "$twelve" 2 '' "$usage" --announce "${values[@]}"
        values[place]=$'\xff'
        run "an announcement whose value $place is no text" "$twelve" 2 '' "$usage" --announce "${values[@]}"
        values=(a 1 0 b c d e)
        run "an announcement of $place values" "$twelve" 2 '' "$usage" --announce "${values[@]:0:place}"
    done
    run 'an announcement of eight values' "$twelve" 2 '' "$usage" --announce a 1 0 b c d e f
    # The record of a draw, and the check, accept only its announcement.
    files
    printf '%b' "$twelve" >"$work/twelve"
    for numbers in '1 1' '3 1' '0 3' '12 0'; do
        read -r -a values <<<"$numbers"
        announcement_of "${values[@]}" >"$work/other"
        not_announced "$numbers of 3"
    done
    for numbers in '1 2' '3 0'; do
        read -r -a values <<<"$numbers"
        announcement_of "${values[@]}" >"$work/other"
        run "a record of $numbers" "$twelve" 0 "$named$(sum_of other)\n$rest" '' --record "$throws" 3 "$work/other"
        cp "$work/out" "$work/named"
        run "a check of $numbers" "$twelve" 0 "$agrees_too" '' --check "$work/named" "$work/other"
    done
    for values in '1s/1$/2/' '2s/S/\\x53/' '2s/".*"/""/' '2s/"//' '3s/3/4/' '4s/12/13/' '4s/12/012/' '5s/2/02/' \
        '5s/2/+2/' '5d' '5{h;d};6G' '7s/".*"/""/' '8s/".*"/""/' '9s/".*"/""/' '10s/".*"/""/' '10s/$/ /' '11s/$/\r/' \
        's/$/\r/' '11d' '$a more' '1i more'; do
        sed "$values" "$work/announcement" >"$work/other"
        not_announced "one changed by $values"
    done
    head -c -1 "$work/announcement" >"$work/other"
    not_announced 'one without its last line feed'
    cp "$work/noon" "$work/other"
    not_announced 'another text'
    : >"$work/other"
    not_announced 'an empty text'
    for entrants in "${twelve%Lise*}" "Lise\n${twelve%Lise*}" "${twelve%??}" "${twelve}Mia\n" 'a\n' ''; do
        run 'a record of another list than the announced one' "$entrants" 12 '' "$unannounced" \
            --record "$throws" 3 "$work/announcement"
        run 'a check with another list than the announced one' "$entrants" 11 '' "$other_list" \
            --check "$work/full" "$work/announcement"
    done
    run 'a record of another number than the announced one' "$twelve" 12 '' "$unannounced" \
        --record "$throws" all "$work/announcement"
    run 'a record of too many, announced' "$twelve" 12 '' "$unannounced" --record "$throws" 13 "$work/announcement"
    run 'an announced record, an empty line' 'a\n\n' 4 '' 'lots: line 2 is empty\n' \
        --record "$throws" 3 "$work/announcement"
}

# The SHA-256 of the file $1.
sum_of() {
    local sum
    sum=$(sha256sum <"$work/$1")
    echo "${sum%% *}"
}

# The file `other`, $1, is not the announcement of the example: no record is written with it, and no record that names
# it is accepted with it.
not_announced() {
    run "a record with $1" "$twelve" 12 '' "$unannounced" --record "$throws" 3 "$work/other"
    printf '%b' "$named$(sum_of other)\n$rest" >"$work/named"
    run "a check with $1" "$twelve" 12 '' "$unannounced" --check "$work/named" "$work/other"
    run "a check that does not compare $1" "$twelve" 0 "$agrees" '' --check "$work/named"
}

records() {
    local odd=$' "\\\n\xc2\xa0\xe2\x80\x8d' k sum
    files
    run 'a record' "$twelve" 0 "$example" '' --record "$throws" 3
    run 'a record, zeros in front' "$twelve" 0 "$example" '' --record "$throws" 003
    run 'a record with an announcement' "$twelve" 0 "$named$sum\n$rest" '' --record "$throws" 3 "$work/announcement"
    run 'a record of nobody, by an odd seed' 'a\n' 0 "${named}none
seed: \" \"\\\\x5c\\\\x0a\\\\xc2\\\\xa0\\\\xe2\\\\x80\\\\x8d\"
list SHA-256: 87428fc522803d31065e7bce3cf03fe475096631e5e07bbd7a0fde60c4cf25c7
entrants: 1\ndrawn: 0\nresult SHA-256: $empty_sum\nend of the record\n" '' --record "$odd" 0
    run 'a record of odd entrants' '"\n\\\n \n\0377\0303\0251 \n\0303\0251\n' 0 "${named}none
seed: \"a seed\"
list SHA-256: 9edb7fe4aca523bf373ff4d30be39c4e4d374fe8dc41073840381dae50aea6d2
entrants: 5\ndrawn: 5
result SHA-256: c98475964a3af251221281952931b9f4ce27121562786284a1a8d9c27acc0888
1: \"\\\\xff\\\\xc3\\\\xa9 \"\n2: \"\"\"\n3: \" \"\n4: \"\0303\0251\"\n5: \"\\\\x5c\"
end of the record\n" '' --record 'a seed' all
    run 'a record of none' '' 0 "${named}none\nseed: \"x\"\nlist SHA-256: $empty_sum
entrants: 0\ndrawn: 0\nresult SHA-256: $empty_sum\nend of the record\n" '' --record x all
    run 'a record, one too many' 'a\n' 3 '' 'lots: 1 entrants, 2 asked for\n' --record x 2
    run 'a record, an empty line' 'a\n\n' 4 '' 'lots: line 2 is empty\n' --record x all
    # The sums are those of the Python code's records.
    seq 1002 >"$work/thousand"
    while read -r k sum; do
        begin
        "$work/$compiler" --record 'a seed' "$k" <"$work/thousand" >"$work/out" 2>"$work/err" || status=$?
        count "a record of $k" "$(
            differs 'status' "$status" 0
            differs 'the sum' "$(sha256sum <"$work/out")" "$sum  -"
        )"
        cp "$work/out" "$work/many"
        begin
        "$work/$compiler" --check "$work/many" <"$work/thousand" >"$work/out" 2>"$work/err" || status=$?
        end "the check of a record of $k" 0 "$agrees" ''
    done <<'END'
1000 370ed1adbf1f80c8fc1367a4560bfc617f612b740caa4bd20b09a7351d16f6b1
1001 7225566d77505334fdc5499ac0d8ee4236baa9e69568f19a1d3395f4d6b0bf3c
1002 a5b1da1ad12d3d5e1e7c54e614794a344caf3997926d6fab18500b86591de53a
END
}

checks() {
    local unreadable='lots: this is no record of format 2\n' other='lots: the record names another announcement, or none\n'
    local differs='lots: the record is not that of a draw from this list\n' name
    files
    run 'a check' "$twelve" 0 "$agrees" '' --check "$work/record"
    run 'a check without comparing the announcement' "$twelve" 0 "$agrees" '' --check "$work/full"
    run 'a check with the announcement' "$twelve" 0 "$agrees_too" '' --check "$work/full" "$work/announcement"
    run 'a check with another announcement' "$twelve" 10 '' "$other" --check "$work/full" "$work/empty"
    run 'a record without an announcement' "$twelve" 10 '' "$other" --check "$work/record" "$work/announcement"
    run 'an announcement beside an empty one' "$twelve" 10 '' "$other" --check "$work/record" "$work/empty"
    sed "s/^result/module SHA-256: $empty_sum\n&/" "$work/record" >"$work/of the page"
    run 'a record of the page' "$twelve" 0 "$agrees" '' --check "$work/of the page"
    run 'no record' "$twelve" 9 '' "$unreadable" --check "$work/announcement"
    run 'an empty record' "$twelve" 9 '' "$unreadable" --check "$work/empty"
    run 'a list as the record' "$twelve" 9 '' "$unreadable" --check "$work/list"
    sed '1s/2$/1/' "$work/record" >"$work/other"
    run 'a record of format 1' "$twelve" 9 '' "$unreadable" --check "$work/other"
    for version in 20 3 '2 ' 2x ''; do
        sed "1s/2$/$version/" "$work/record" >"$work/other"
        run "a record of format '$version'" "$twelve" 9 '' "$unreadable" --check "$work/other"
    done
    sed '3s/"4/"\\4/' "$work/record" >"$work/other"
    run 'a bad escape' "$twelve" 9 '' "$unreadable" --check "$work/other"
    sed '3s/".*"/""/' "$work/record" >"$work/other"
    run 'a record without a seed' "$twelve" 9 '' "$unreadable" --check "$work/other"
    printf '%b' "$twelve" >"$work/twelve"
    run 'another list' "$letters" 11 '' "$other_list" --check "$work/record"
    run 'a list with another order' "Lise\n${twelve%Lise*}" 11 '' "$other_list" --check "$work/record"
    run 'a list without its last line feed' "${twelve%??}" 11 '' "$other_list" --check "$work/record"
    run 'another list, with an announcement' "$letters" 11 '' "$other_list" --check "$work/full" "$work/announcement"
    run 'another list and announcement' "$letters" 11 '' "$other_list" --check "$work/full" "$work/empty"
    for name in 's/$/\r/' '2s/none/NONE/' '3s/4 1/41/' '4s/3/4/' '5s/12/13/' '6s/3/2/' '6s/3/03/' '6s/3/+3/' \
        '7s/d/D/' '8s/1:/1 :/' '9s/Jun/Jan/' '9{h;d};10G' '10d' '11d' '$a more' '1i more' '3s/"4/"\\x34/'; do
        sed "$name" "$work/record" >"$work/other"
        begin
        "$work/$compiler" --check "$work/other" <"$work/twelve" >"$work/out" 2>"$work/err" || status=$?
        count "a record changed by $name" "$(
            [[ $status = 9 || $status = 11 ]] || echo " status is $status;"
            differs_in 'standard output' out ''
            [[ $status != 11 || $name = 4* ]] || differs_in 'standard error' err "$differs"
            [[ $status != 11 || $name != 4* ]] || differs_in 'standard error' err "$other_list"
            [ "$status" != 9 ] || differs_in 'standard error' err "$unreadable"
        )"
    done
    head -c -1 "$work/record" >"$work/other"
    run 'a record without its last line feed' "$twelve" 11 '' "$differs" --check "$work/other"
    sed '6s/3/13/' "$work/record" >"$work/other"
    run 'a check, too few' "$twelve" 3 '' 'lots: 12 entrants, 13 asked for\n' --check "$work/other"
    run 'a check, a shorter list' 'a\nb\n' 11 '' "$other_list" --check "$work/record"
    run 'a check, no entrants' '' 11 '' "$other_list" --check "$work/record"
    run 'a check, an empty line' 'a\n\nb\n' 4 '' 'lots: line 2 is empty\n' --check "$work/record"
}

options() {
    local name version help
    version=$(sed -n 's/^version = "\(.*\)"$/\1/p' Cargo.toml | head -n 1)
    help=$(
        cat <<'END'
usage: lots SEED COUNT|all < entrants
       lots --announce OCCASION WINNERS RESERVES SOURCE FORM EXAMPLE TIME < entrants
       lots --record SEED COUNT|all [ANNOUNCEMENT] < entrants
       lots --check RECORD [ANNOUNCEMENT] < entrants
       lots --version
       lots --help

Draws COUNT of the entrants, one per line of standard input, as the seed determines, and writes them
in the order drawn. `--announce` writes an announcement, to be published before the seed is known:
what is drawn for, how many winners and reserves, where the seed will come from, its form, a seed of
this form, and the time. `--record` writes the record of the draw. `--check` draws again: its status
is 0 only if the file RECORD is the record of a draw from these entrants. If a file ANNOUNCEMENT is
given, the record names its SHA-256, and it has to be the announcement of such a draw, whose winners
and reserves are COUNT together. A seed and a count are always a draw: write ./2026 for a file of
that name.
END
    )
    run 'the version' '' 0 "lots $version\n" '' --version
    run 'the help' '' 0 "$help\n" '' --help
    begin
    "$work/$compiler" --help <. >"$work/out" 2>"$work/err" || status=$?
    end 'the help reads nothing' 0 "$help\n" ''
    run 'a seed --announce' "$letters" 0 'g\ne\nc\n' '' --announce 3
    run 'a seed announce' "$letters" 0 'b\nc\ng\n' '' announce 3
    run 'a seed --record' "$letters" 0 'i\nd\nj\n' '' --record 3
    run 'a seed --check' "$letters" 0 'f\nd\nh\n' '' --check 3
    run 'a seed check' "$letters" 0 'd\ng\nb\n' '' check 3
    run 'a seed --version' "$letters" 0 'h\nb\nc\n' '' --version 3
    run 'a seed record' "$letters" 0 'c\nd\na\n' '' record 3
    for name in --announce --record --check --version --help; do
        begin
        "$work/$compiler" --record "$name" 1 </dev/null >"$work/out" 2>"$work/err" || status=$?
        end "a record by the seed $name" 3 '' 'lots: 0 entrants, 1 asked for\n'
        run "$name and four values" "$letters" 2 '' "$usage" "$name" a 1 b c
    done
    for name in --version --help; do
        run "$name with an empty value" "$letters" 2 '' "$usage" "$name" ''
        run "$name with a value" "$letters" 2 '' "$usage" "$name" x
        run "$name twice" "$letters" 2 '' "$usage" "$name" "$name"
    done
    files
    run '--record alone' "$letters" 2 '' "$usage" --record
    run '--record with a seed' "$letters" 2 '' "$usage" --record x
    run '--record with an empty seed' "$letters" 2 '' "$usage" --record '' 1
    run '--record with an empty seed, and an announcement' "$letters" 2 '' "$usage" --record '' 1 "$work/empty"
    run '--record after the seed' "$letters" 2 '' "$usage" x 1 --record
    run '--check alone' "$letters" 2 '' "$usage" --check
    run '--check with three values' "$letters" 2 '' "$usage" --check "$work/record" "$work/empty" 1
    run '--check with a path that is no text' "$letters" 2 '' "$usage" --check $'\xff'
    run '--record with a path that is no text' "$letters" 2 '' "$usage" --record x 1 $'\xff'
    run '--record with a seed that is no text' "$letters" 2 '' "$usage" --record $'\xff' 1
    for name in '' - +1 -1 1.5 ' 1' ALL 18446744073709551616 "$work/empty"; do
        run "--record with the count '$name'" "$letters" 2 '' "$usage" --record x "$name"
        run "--record with the count '$name', and an announcement" "$letters" 2 '' "$usage" \
            --record x "$name" "$work/empty"
    done
}

# Files that cannot be read, a standard input that cannot be read, and a standard output that accepts nothing.
unread_files() {
    local file command commands
    files
    printf '%b' "$twelve" >"$work/twelve"
    printf x >"$work/private"
    chmod 000 "$work/private"
    for file in "$work/missing" "$work" / "$work/record/" "$work/record/x" '' "$work/private"; do
        if [ "$file" = "$work/private" ] && [ -r "$file" ]; then
            skip "a file that may not be read, by $compiler" 'this user reads any file'
            continue
        fi
        run "a record that is '${file#"$work"}'" "$twelve" 6 '' 'lots: read failed\n' --check "$file"
        run "a record that is '${file#"$work"}', with an announcement" "$twelve" 6 '' 'lots: read failed\n' \
            --check "$file" "$work/announcement"
        run "an announcement that is '${file#"$work"}'" "$twelve" 6 '' 'lots: read failed\n' \
            --check "$work/record" "$file"
        run "an announcement that is '${file#"$work"}', for a record" "$twelve" 6 '' 'lots: read failed\n' \
            --record x 3 "$file"
    done
    chmod 600 "$work/private"
    for command in '--announce a 2 1 b c d e' '--record x 3' "--record x 3 $work/announcement" \
        "--check $work/record" "--check $work/full $work/announcement"; do
        read -r -a commands <<<"$command"
        begin
        "$work/$compiler" "${commands[@]}" <. >"$work/out" 2>"$work/err" || status=$?
        end "${command//$work/}, a folder" 6 '' 'lots: read failed\n'
        begin
        "$work/$compiler" "${commands[@]}" <&- >"$work/out" 2>"$work/err" || status=$?
        end "${command//$work/}, standard input closed" 6 '' 'lots: read failed\n'
    done
    for command in '--announce a 2 1 b c d e' '--record x 3' "--check $work/record" --version --help; do
        read -r -a commands <<<"$command"
        begin
        "$work/$compiler" "${commands[@]}" <"$work/twelve" >/dev/full 2>"$work/err" || status=$?
        end "${command//$work/}, standard output full" 7 '' 'lots: write failed\n'
        begin
        "$work/$compiler" "${commands[@]}" <"$work/twelve" >&- 2>"$work/err" || status=$?
        end "${command//$work/}, standard output closed" 7 '' 'lots: write failed\n'
        begin
        "$work/$compiler" "${commands[@]}" <"$work/twelve" >/dev/full 2>/dev/full || status=$?
        end "${command//$work/}, both full" 7 '' ''
    done
    run_without_errors 'no record' "$twelve" 9 '' --check "$work/announcement"
    run_without_errors 'another announcement' "$twelve" 10 '' --check "$work/record" "$work/announcement"
    run_without_errors 'another list' "$letters" 11 '' --check "$work/record"
    run_without_errors 'a record of what is not announced' "$twelve" 12 '' --record x 2 "$work/announcement"
    printf '%b' "$named$(sum_of noon)\n$rest" >"$work/named"
    run_without_errors 'a check of what is not announced' "$twelve" 12 '' --check "$work/named" "$work/noon"
    run_without_errors 'an announcement of too many' "$twelve" 3 '' --announce a 12 1 b c d e
}

# What counts as a line.
lines() {
    run 'no last line feed' 'a\nb' 0 'b\na\n' '' seed all
    run 'one line, no line feed' 'only' 0 'only\n' '' seed all
    run 'carriage returns' 'a\r\nb\r\n' 0 'b\r\na\r\n' '' seed all
    run 'a carriage return alone' '\r' 0 '\r\n' '' seed 1
    run 'spaces' ' \n' 0 ' \n' '' seed all
    run 'bytes that are no text' '\0377\0376\n\0303\n' 0 '\0303\n\0377\0376\n' '' seed all
    run 'bytes 0' '\0000\n\0000\0000\n' 0 '\0000\0000\n\0000\n' '' seed all
    run 'equal lines' 'a\na\nb\na\n' 0 'b\na\na\na\n' '' seed all
    run 'only equal lines' 'a\na\na\n' 0 'a\na\n' '' seed 2
}

counts() {
    local n
    run 'leading zeros' "$letters" 0 'h\na\ne\n' '' 'a seed' 00000000000000000000000000000003
    run 'zeros' "$letters" 0 '' '' 'a seed' 0000
    run 'no argument' "$letters" 2 '' "$usage"
    run 'one argument' "$letters" 2 '' "$usage" seed
    run 'an unknown option alone' "$letters" 2 '' "$usage" --all
    run 'a short option alone' "$letters" 2 '' "$usage" -h
    run 'two dashes before the arguments' "$letters" 2 '' "$usage" -- seed all
    run 'an option after the arguments' "$letters" 2 '' "$usage" seed all --help
    run 'three arguments' "$letters" 2 '' "$usage" seed 1 1
    run 'a hundred arguments' "$letters" 2 '' "$usage" {1..100}
    run 'an empty seed' "$letters" 2 '' "$usage" '' all
    run 'a seed that is no text' "$letters" 2 '' "$usage" $'\xff' all
    run 'a seed that is half a letter' "$letters" 2 '' "$usage" $'seed\xc3' all
    run 'a seed that is a surrogate' "$letters" 2 '' "$usage" $'\xed\xa0\x80' all
    run 'a count that is no text' "$letters" 2 '' "$usage" seed $'\xff'
    run 'a third argument that is no text' "$letters" 2 '' "$usage" seed all $'\xff'
    for n in '' - + -0 -1 +1 +0 1.5 1e0 0x1 1_0 1,0 ' 1' '1 ' $'1\n' ALL All al alll ' all' -all a '*' ٣ \
        18446744073709551616 018446744073709551616 99999999999999999999999999999999999999999; do
        run "the count '$n'" "$letters" 2 '' "$usage" seed "$n"
    done
    run 'one too many' "$letters" 3 '' 'lots: 10 entrants, 11 asked for\n' seed 11
    run 'one of none' '' 3 '' 'lots: 0 entrants, 1 asked for\n' seed 1
    run 'two of one' 'only' 3 '' 'lots: 1 entrants, 2 asked for\n' seed 2
    n=18446744073709551615
    run 'far too many' 'a\nb\nc\n' 3 '' "lots: 3 entrants, $n asked for\n" seed "$n"
    run 'too many, zeros in front' 'a\n' 3 '' 'lots: 1 entrants, 2 asked for\n' seed 00002
}

empty_lines() {
    run 'the first line is empty' '\na\nb\n' 4 '' 'lots: line 1 is empty\n' seed all
    run 'a line in the middle is empty' 'a\n\nb\n' 4 '' 'lots: line 2 is empty\n' seed all
    run 'the last line is empty' 'a\nb\n\n' 4 '' 'lots: line 3 is empty\n' seed all
    run 'the only line is empty' '\n' 4 '' 'lots: line 1 is empty\n' seed all
    run 'two empty lines' 'a\n\n\nb' 4 '' 'lots: line 2 is empty\n' seed 1
    run 'an empty line before too many' 'a\n\nb\n' 4 '' 'lots: line 2 is empty\n' seed 9
    run 'an empty line, none asked for' 'a\n\n' 4 '' 'lots: line 2 is empty\n' seed 0
    run 'an empty line after ten' "$letters\n" 4 '' 'lots: line 11 is empty\n' seed all
}

# Standard input that cannot be read, and that need not be read.
input() {
    begin
    "$work/$compiler" seed all <. >"$work/out" 2>"$work/err" || status=$?
    end 'a folder' 6 '' 'lots: read failed\n'
    begin
    "$work/$compiler" seed all 0>"$work/none" >"$work/out" 2>"$work/err" || status=$?
    end 'a file that is only written' 6 '' 'lots: read failed\n'
    begin
    "$work/$compiler" seed all <&- >"$work/out" 2>"$work/err" || status=$?
    end 'standard input closed' 6 '' 'lots: read failed\n'
    begin
    "$work/$compiler" seed 0 <&- >"$work/out" 2>"$work/err" || status=$?
    end 'standard input closed, none asked for' 6 '' 'lots: read failed\n'
    begin
    "$work/$compiler" seed all <&- >&- 2>"$work/err" || status=$?
    end 'input and output closed' 6 '' 'lots: read failed\n'
    begin
    "$work/$compiler" seed ALL <. >"$work/out" 2>"$work/err" || status=$?
    end 'a bad count, and a folder' 2 '' "$usage"
    printf '%b' "$letters" >"$work/list"
    begin
    { "$work/$compiler" seed +1 >"$work/out" 2>"$work/err" || status=$?; cat >"$work/rest"; } <"$work/list"
    end 'a bad count' 2 '' "$usage"
    count 'a bad count reads nothing' "$(differs_from 'the rest of the list' rest list)"
    begin
    { printf 'a\nb'; sleep 0.2; printf 'c\nd'; sleep 0.2; printf '\n'; } |
        "$work/$compiler" seed all >"$work/out" 2>"$work/err" || status=$?
    end 'a pipe that waits' 0 'bc\nd\na\n' ''
}

# Files that other programs have read and written in part: the program continues at the current position, and leaves it
# at the end of what it read and wrote. `1<>` opens a file for reading and writing, without emptying it.
streams_in_use() {
    local size skipped
    for size in 0 1 2 5000 100000; do
        printf '%*s\nb\na\n' "$size" '' >"$work/list"
        begin
        { IFS= read -r skipped; "$work/$compiler" seed all >"$work/out" 2>"$work/err" || status=$?; cat >"$work/rest"; } \
            <"$work/list"
        end "a list after a line of $size that was read" 0 'a\nb\n' ''
        count "all of it is read, after $size" "$(differs_in 'the rest' rest '')$(differs 'the line' "${#skipped}" "$size")"
    done
    printf '%b' "$letters" >"$work/list"
    begin
    printf '0123456789' >"$work/out"
    "$work/$compiler" 'a seed' 3 <"$work/list" 1<>"$work/out" 2>"$work/err" || status=$?
    end 'a file that holds more' 0 'h\na\ne\n6789' ''
    begin
    { printf 'first\n'; "$work/$compiler" 'a seed' 3 <"$work/list" 2>"$work/err" || status=$?; printf 'last\n'; } >"$work/out"
    end 'between what others write' 0 'first\nh\na\ne\nlast\n' ''
    begin
    printf 'first\n' >"$work/out"
    "$work/$compiler" 'a seed' 3 <"$work/list" >>"$work/out" 2>"$work/err" || status=$?
    end 'after what is there' 0 'first\nh\na\ne\n' ''
}

# The same list as a file and through a pipe. A shuffle of all, and a draw of its first lines.
long_list() {
    local k sum
    seq 100000 >"$work/list"
    begin
    timeout 60 "$work/$compiler" 'a long list' all <"$work/list" >"$work/all" 2>"$work/err" || status=$?
    end '100,000 entrants' 0 '' ''
    LC_ALL=C sort "$work/all" >"$work/sorted"
    LC_ALL=C sort "$work/list" >"$work/wanted"
    count 'a permutation' "$(differs_from 'the sorted output' sorted wanted)"
    sum=$(sha256sum <"$work/all")
    count 'an order' "$(differs 'the sum' "${sum%% *}" 842ff73b3310724b1c74bdd02a2ebda4e169c752f31bd71d6ffeef7bd5873412)"
    begin
    cat "$work/list" | timeout 60 "$work/$compiler" 'a long list' all >"$work/out" 2>"$work/err" || status=$?
    count '100,000 entrants through a pipe' "$(differs 'status' "$status" 0; differs_from 'standard output' out all)"
    for k in 0 1 2 7 8 9 1000 99999 100000; do
        begin
        timeout 60 "$work/$compiler" 'a long list' "$k" <"$work/list" >"$work/out" 2>"$work/err" || status=$?
        head -n "$k" "$work/all" >"$work/wanted"
        count "the first $k" "$(differs 'status' "$status" 0; differs_from 'standard output' out wanted)"
    done
    printf '%b' "$letters" >"$work/list"
    begin
    "$work/$compiler" 'a seed' all <"$work/list" 1<>"$work/list" 2>"$work/err" || status=$?
    cp "$work/list" "$work/out"
    end 'a list that is written over' 0 'h\na\ne\nj\nb\nf\nd\ni\nc\ng\n' ''
}

# More than 2^20 entrants, in more than 8 MiB. The expected checksum is that of the Python code's text.
many_entrants() {
    local sum
    seq 10000001 11048577 >"$work/list"
    begin
    timeout 60 "$work/$compiler" 'many entrants' all <"$work/list" >"$work/out" 2>"$work/err" || status=$?
    sum=$(sha256sum <"$work/out")
    : >"$work/out"
    end '1,048,577 entrants' 0 '' ''
    count 'their order' "$(differs 'the sum' "${sum%% *}" 36b471efcc84f42bcba7bec84f4e8d60199d5aed7c22d3b614f62fde69fa4fdf)"
    begin
    timeout 60 "$work/$compiler" seed 1048578 <"$work/list" >"$work/out" 2>"$work/err" || status=$?
    end 'one too many of many' 3 '' 'lots: 1048577 entrants, 1048578 asked for\n'
    echo >>"$work/list"
    begin
    timeout 60 "$work/$compiler" seed 1 <"$work/list" >"$work/out" 2>"$work/err" || status=$?
    end 'an empty line after many' 4 '' 'lots: line 1048578 is empty\n'
}

# A list of more than 2^30 bytes is read to its end, if there is memory for it.
great_list() {
    if ! awk '/^MemAvailable:/ { exit $2 < 6000000 }' /proc/meminfo; then
        skip "a list of more than 2^30 bytes, by $compiler" 'less than 6 GB of memory are free'
        return
    fi
    begin
    { head -c 1100000000 /dev/zero | tr '\0' a && printf '\nb\nc\n'; } |
        timeout 300 "$work/$compiler" seed 99 >"$work/out" 2>"$work/err" || status=$?
    end 'a list of more than 2^30 bytes' 3 '' 'lots: 3 entrants, 99 asked for\n'
}

# Standard output accepts no byte.
no_output() {
    printf '%b' "$letters" >"$work/list"
    begin
    "$work/$compiler" seed all <"$work/list" >/dev/full 2>"$work/err" || status=$?
    end 'standard output full' 7 '' 'lots: write failed\n'
    begin
    "$work/$compiler" seed all <"$work/list" >&- 2>"$work/err" || status=$?
    end 'standard output closed' 7 '' 'lots: write failed\n'
    begin
    "$work/$compiler" seed all <"$work/list" 1<"$work/list" 2>"$work/err" || status=$?
    end 'standard output only read' 7 '' 'lots: write failed\n'
    begin
    mkfifo "$work/pipe"
    exec 3<>"$work/pipe" 4>"$work/pipe" 3>&-
    (trap '' PIPE && exec "$work/$compiler" seed all <"$work/list" >&4 2>"$work/err") || status=$?
    exec 4>&-
    rm "$work/pipe"
    end 'a pipe that nobody reads' 7 '' 'lots: write failed\n'
    begin
    "$work/$compiler" seed 0 <"$work/list" >/dev/full 2>"$work/err" || status=$?
    end 'nothing to write, standard output full' 0 '' ''
    begin
    "$work/$compiler" seed 11 <"$work/list" >/dev/full 2>"$work/err" || status=$?
    end 'too many, standard output full' 3 '' 'lots: 10 entrants, 11 asked for\n'
}

# Standard output accepts 1024 bytes. They must be the first 1024 bytes of the program's full text.
little_output() {
    seq 1000 >"$work/list"
    "$work/$compiler" seed all <"$work/list" >"$work/all" || true
    head -c 1024 "$work/all" >"$work/wanted"
    begin
    (
        trap '' XFSZ
        ulimit -f 1
        exec "$work/$compiler" seed all <"$work/list" >"$work/out" 2>"$work/err"
    ) || status=$?
    count 'standard output full at last' "$(
        differs 'the length of all' "$(wc -c <"$work/all")" "$(wc -c <"$work/list")"
        differs 'status' "$status" 7
        differs_from 'standard output' out wanted
        differs_in 'standard error' err 'lots: write failed\n'
    )"
}

# Less and less memory, until the program does not start. With enough memory it writes its text. With less it ends with
# status 5 and writes nothing. With even less, the shell or the loader ends it.
little_memory() {
    seq 100000 >"$work/list"
    timeout 60 "$work/$compiler" --record seed all <"$work/list" >"$work/long" || true
    less_and_less seed all
    less_and_less --announce a 9 1 b c d e
    less_and_less --record seed all
    less_and_less --check "$work/long"
}

# The same for these arguments, and the list that is there.
less_and_less() {
    local kibibytes refused=0 wrong=
    timeout 60 "$work/$compiler" "$@" <"$work/list" >"$work/all" || true
    for ((kibibytes = 24000; kibibytes >= 1000; kibibytes -= 500)); do
        begin
        {
            prlimit --as="$((kibibytes * 1024))" "$work/$compiler" "$@" \
                <"$work/list" >"$work/out" 2>"$work/err" || status=$?
        } 2>/dev/null
        case $status in
        0)
            wrong+=$(differs_from 'standard output' out all)
            wrong+=$(differs_in 'standard error' err '')
            ;;
        5)
            refused=$((refused + 1))
            wrong+=$(differs_in 'standard output' out '')
            wrong+=$(differs_in 'standard error' err 'lots: no memory\n')
            ;;
        *) break ;;
        esac
    done
    [ "$refused" -gt 0 ] || wrong+=' it never runs out of memory;'
    [ "$status" -ge 126 ] || wrong+=" at last the status is $status;"
    count "less and less memory for $1" "$wrong"
}

# The outcome is the same if standard error accepts nothing, because it is full or closed.
no_errors() {
    run_without_errors 'all of two' 'a\nb\n' 0 'b\na\n' seed all
    run_without_errors 'a bad count' 'a\nb\n' 2 '' seed +1
    run_without_errors 'too many' 'a\nb\n' 3 '' seed 3
    run_without_errors 'an empty line' 'a\n\n' 4 '' seed all
    begin
    "$work/$compiler" seed all <. >"$work/out" 2>/dev/full || status=$?
    end 'a folder, standard error full' 6 '' ''
    begin
    "$work/$compiler" seed all <. >"$work/out" 2>&- || status=$?
    end 'a folder, standard error closed' 6 '' ''
    printf 'a\nb\n' >"$work/list"
    begin
    "$work/$compiler" seed all <"$work/list" >/dev/full 2>/dev/full || status=$?
    end 'both full' 7 '' ''
    begin
    "$work/$compiler" seed all <"$work/list" >&- 2>&- || status=$?
    end 'both closed' 7 '' ''
}

# Like `run`, but with a standard error that is full, and then with one that is closed: run_without_errors NAME LIST
# STATUS OUTPUT ARGUMENT..
run_without_errors() {
    local name=$1 wanted=$3 out=$4
    printf '%b' "$2" >"$work/list"
    shift 4
    begin
    "$work/$compiler" "$@" <"$work/list" >"$work/out" 2>/dev/full || status=$?
    end "$name, standard error full" "$wanted" "$out" ''
    begin
    "$work/$compiler" "$@" <"$work/list" >"$work/out" 2>&- || status=$?
    end "$name, standard error closed" "$wanted" "$out" ''
}

builds_of lots
for compiler in $(builds); do
    texts
    announcements
    records
    checks
    options
    unread_files
    lines
    counts
    empty_lines
    input
    streams_in_use
    long_list
    many_entrants
    great_list
    no_output
    little_output
    little_memory
    no_errors
done
[ -n "$(builds)" ] || finish
all_different
mapfile -t programs < <(builds | sed "s|^|$work/|")
part python3 tests/second_opinion.py "${programs[@]}"
part python3 tests/compare_records.py "${programs[@]}"
finish
