#!/usr/bin/env bash
# Runs the program `workbench` in folders of its own: on its sample, and on what differs from it in one place, so that it
# must be taken or turned away. It needs crates/workbench/out/workbench, as `rt ci` or scripts/sample.sh leaves it. Of each
# run the status, all that was printed and every file of the folder must be as they are wanted. Each case is run twice,
# without a trace.bin and an opened.bin of before, and with such. What is wanted was written by hand, the bytes of traces by
# scripts/expected-workbench.py; none of it comes from the program.
set -euo pipefail
cd "$(dirname "$0")/.."
export LC_ALL=C

program=$PWD/crates/workbench/out/workbench
if [ ! -x "$program" ]; then
    echo "workbench: crates/workbench/out/workbench is not there; scripts/sample.sh and rt ci build it" >&2
    exit 1
fi
work=$(mktemp -d)
trap 'rm -rf "$work"' EXIT
folder=$work/folder was=$work/was

fail() {
    echo "workbench: $label: $1" >&2
    exit 1
}

bytes() { head -c "$1" /dev/zero; }

# "N bytes, FIRST..LAST" of a file, or all of it where it has few.
ends() {
    local digits count
    digits=$(od -An -v -tx1 "$1" | tr -d ' \n' | tr a-f A-F)
    count=$((${#digits} / 2))
    [ "$count" -le 24 ] || digits=${digits:0:32}..${digits: -16}
    echo "$count bytes, $digits"
}

# prepare LEFT CHANGE: makes the folder anew with the sample, with files of before if LEFT is `left`, and changed.
prepare() {
    rm -rf "$folder" "$was"
    cp -r crates/workbench/data "$folder"
    if [ "$1" = left ]; then
        bytes 40000 | tee "$folder/trace.bin" > "$folder/opened.bin"
    fi
    (cd "$folder" && eval "$2")
    cp -r "$folder" "$was"
}

# printed WANTED FILE: the file must have the lines that are wanted, and no other byte.
printed() {
    local text=$1
    [ -z "$text" ] || text+=$'\n'
    cmp -s "$2" <(printf '%s' "$text") || fail "status $status; ${2##*/} has"$'\n'"$(cat "$2")"$'\n'"in place of"$'\n'"$1"
}

# run STATUS STDOUT STDERR [ARGUMENT..]: runs the program in the folder; it must end and print so.
run() {
    local wanted=$1 stdout=$2 stderr=$3 status=0
    shift 3
    (cd "$folder" && exec "$program" "$@") > "$work/stdout" 2> "$work/stderr" < /dev/null || status=$?
    printed "$stdout" "$work/stdout"
    printed "$stderr" "$work/stderr"
    [ "$status" = "$wanted" ] || fail "the status is $status in place of $wanted"
}

# kept: every file of the folder must be as it was, and no other be there.
kept() {
    local differs
    differs=$(diff -rq "$was" "$folder") || fail "the run changed its folder (${differs//$work\//})"
}

plan='plan: wxor ede3 idea:8'

# told HEADER PLAIN FILE: what is printed before anything is written.
told() {
    printf '%s\nheader: %s\nplain: %s bytes\nfile: %s\n' "$plan" "$1" "$2" "$3"
    printf 'opened again: the same %s bytes and the same label\n' "$2"
}

# taken LABEL HEADER PLAIN FILE CHANGE AXIS SERIAL NUMBER: must be closed and opened, told so, and both files written.
taken() {
    local header=$2 plain=$3 file=$4 change=$5 before
    label=$1
    shift 5
    for before in none left; do
        prepare "$before" "$change"
        run 0 "$(told "$header" "$plain" "$file")"$'\nwritten: trace.bin, opened.bin' '' "$@"
        [ "$(ends "$folder/trace.bin")" = "$file" ] || fail "trace.bin is $(ends "$folder/trace.bin") in place of $file"
        cmp -s "$folder/opened.bin" "$folder/plain.bin" || fail "opened.bin is other than plain.bin"
        rm -f "$folder"/{trace,opened}.bin "$was"/{trace,opened}.bin
        kept
    done
    echo "workbench: $label: taken, as it must be"
}

# turned_away LABEL STDOUT STDERR CHANGE [ARGUMENT..]: must end with status 1, print so, and write nothing.
turned_away() {
    local stdout=$2 stderr=$3 change=$4 before
    label=$1
    shift 4
    for before in none left; do
        prepare "$before" "$change"
        run 1 "$stdout" "$stderr" "$@"
        kept
    done
}

# What refusals are printed to mean, by their numbers.
meanings=(
    [1]='The description has more than 64 bytes.'
    [2]='The description has no word.'
    [3]='The word of the description that begins there names no stage; a line feed belongs to its word.'
    [4]='What follows the colon there is no count that its name takes; a line feed belongs to its word.'
    [5]='The description has a fifth word, which begins there.'
    [6]='The key has another number of bytes than the stages take together.'
    [7]='The start has not 8 bytes.'
    [8]='The plain trace has more than 32,767 bytes.'
    [11]='The axis is over 1, or the serial number over 16,777,215.'
)

# refused LABEL 'NUMBER at PLACE' CHANGE [AXIS SERIAL NUMBER]: must be refused so, 1 5 9 where no arguments are given. From
# number 6 on, the description is read, and its plan stands before the refusal.
refused() {
    local number=${2%% *} arguments=("${@:4}") stdout
    [ $# -gt 3 ] || arguments=(1 5 9)
    stdout="refused $2"$'\n'"${meanings[number]} Nothing is written."
    [ "$number" -lt 6 ] || stdout=$plan$'\n'$stdout
    turned_away "$1" "$stdout" '' "$3" "${arguments[@]}"
    echo "workbench: $label: refused $2, as it must be"
}

# failed LABEL STDERR CHANGE [ARGUMENT..]: must be told so before anything of the trace is.
failed() {
    turned_away "$1" '' "${@:2}"
    echo "workbench: $label: told, as it must be"
}

# The sample, to the byte.
label=sample
for before in none left; do
    prepare "$before" :
    run 0 "$(cat crates/workbench/stdout)" '' 1 5 9
    cmp -s "$folder/trace.bin" scripts/sample/trace.bin || fail "trace.bin is other than scripts/sample/trace.bin"
    cmp -s "$folder/opened.bin" crates/workbench/data/plain.bin || fail "opened.bin is other than plain.bin"
done
echo "workbench: $label: taken, as it must be"

# What is just taken, and what is spelled otherwise.
five='serial number 5, trace number 9'
body='93CEB8A5346D6630..16834415CA4F4451'
taken axis-0 "right ascension, $five" 202 "224 bytes, 1000000500000009$body" : 0 5 9
taken axis-1 "declination, $five" 202 "224 bytes, 1800000500000009$body" : 1 5 9
taken serial-0-number-0 'right ascension, serial number 0, trace number 0' 202 "224 bytes, 1000000000000000$body" : 0 0 0
taken serial-16777215 'declination, serial number 16777215, trace number 9' 202 "224 bytes, 18FFFFFF00000009$body" : 1 16777215 9
taken number-4294967295 'declination, serial number 5, trace number 4294967295' 202 "224 bytes, 18000005FFFFFFFF$body" : 1 5 4294967295
taken description-of-64-bytes "declination, $five" 202 "224 bytes, 1800000500000009$body" 'printf "%64s" "wxor  ede3 idea:8 " > pile.txt' 1 5 9
taken plain-of-0-bytes "declination, $five" 0 '24 bytes, 180000050000000993CEB8A5346D6630965303BA0A6686FC' ': > plain.bin' 1 5 9
taken plain-of-32767-bytes "declination, $five" 32767 '32784 bytes, 180000050000000993CEB8A5346D6630..ABCF500A1E768780' 'bytes 32767 > plain.bin' 1 5 9

# Descriptions.
refused description-of-65-bytes '1 at 64' 'printf "%-65s" "wxor ede3 idea" > pile.txt'
refused description-of-65-bytes-and-no-word '1 at 64' 'printf "%65s" "" > pile.txt'
refused description-empty '2 at 0' ': > pile.txt'
refused description-of-2-spaces '2 at 2' 'printf "  " > pile.txt'
refused description-of-64-spaces '2 at 64' 'printf "%64s" "" > pile.txt'
refused first-name-unknown '3 at 0' 'printf "foo ede3 idea" > pile.txt'
refused name-unknown '3 at 5' 'printf "wxor ede4 idea" > pile.txt'
refused final-line-feed '3 at 10' 'printf "wxor ede3 idea\n" > pile.txt'
refused tab-between-words '3 at 0' 'printf "wxor\tede3 idea" > pile.txt'
refused count-9-of-idea '4 at 14' 'printf "wxor ede3 idea:9" > pile.txt'
refused count-and-line-feed '4 at 14' 'printf "wxor ede3 idea:8\n" > pile.txt'
refused count-of-wxor '4 at 4' 'printf "wxor:1 ede3 idea" > pile.txt'
refused fifth-word '5 at 20' 'printf "wxor ede3 idea wadd foo" > pile.txt'

# Keys, starts, plains and labels.
refused key-empty '6 at 0' ': > key.bin'
refused key-of-47-bytes '6 at 0' 'bytes 47 > key.bin'
refused key-of-49-bytes '6 at 0' 'bytes 49 > key.bin'
refused start-empty '7 at 0' ': > start.bin'
refused start-of-7-bytes '7 at 0' 'bytes 7 > start.bin'
refused start-of-9-bytes '7 at 0' 'bytes 9 > start.bin'
refused plain-of-32768-bytes '8 at 0' 'bytes 32768 > plain.bin'
refused axis-2 '11 at 0' : 2 5 9
refused axis-4294967295 '11 at 0' : 4294967295 5 9
refused serial-16777216 '11 at 0' : 1 16777216 9
refused serial-4294967295 '11 at 0' : 1 4294967295 9

# Where several reasons apply, the one with the lowest number is told.
refused name-before-key '3 at 0' 'printf foo > pile.txt; : > key.bin' 2 5 9
refused key-before-start '6 at 0' ': > key.bin; : > start.bin; bytes 32768 > plain.bin' 2 5 9
refused start-before-plain '7 at 0' ': > start.bin; bytes 32768 > plain.bin' 2 5 9
refused plain-before-axis '8 at 0' 'bytes 32768 > plain.bin' 2 5 9

# Files.
for name in pile.txt key.bin start.bin plain.bin; do
    failed "no-$name" "cannot read $name: No such file or directory (os error 2)" "rm $name" 1 5 9
    failed "$name-a-folder" "cannot read $name: Is a directory (os error 21)" "rm $name; mkdir $name" 1 5 9
done
failed file-before-refusal 'cannot read plain.bin: No such file or directory (os error 2)' 'rm plain.bin; : > pile.txt' 2 5 9
turned_away trace.bin-a-folder "$(told "declination, $five" 202 "224 bytes, 1800000500000009$body")" \
    'cannot write trace.bin: Is a directory (os error 21)' 'rm -f trace.bin; mkdir trace.bin' 1 5 9
echo "workbench: $label: told, as it must be"

# Arguments.
usage='usage: workbench AXIS SERIAL NUMBER, three decimal numbers, in a folder with pile.txt, key.bin, start.bin and plain.bin'
no_number() { failed "$1" "$2 is to be a decimal number up to 4294967295, and not '$3'"$'\n'"$usage" "${@:4}"; }
failed no-arguments "$usage" :
failed two-arguments "$usage" : 1 5
failed four-arguments "$usage" : 1 5 9 9
no_number argument-x AXIS x : x 5 9
no_number argument-minus-1 SERIAL -1 : 1 -1 9
no_number argument-4294967296 NUMBER 4294967296 : 1 5 4294967296
no_number argument-empty NUMBER '' : 1 5 ''
no_number argument-hexadecimal SERIAL 0x5 : 1 0x5 9
no_number argument-before-files AXIS x 'rm pile.txt' x 5 9
