#!/usr/bin/env bash
# sheet_check.sh PROGRAM: runs the built sheet_check on files and pipes, and compares what it writes with what it should.
set -uo pipefail
program=$(realpath -e "${1:?usage: sheet_check.sh PROGRAM}") || exit 1
bytes_of() { grep -o '0x..' "$(dirname "$0")/../hosts/$1.inc" | sed 's/0x//' | paste -sd ''; }
sample=$(bytes_of sample_sheet) pump=$(bytes_of pump_sheet)
room=$(mktemp -d)
trap 'rm -rf "$room"' EXIT
right=0
wrong=0

run() { "$program"; }

# told WHAT STATUS OUT ERR: standard output has OUT and nothing else; standard error has ERR in its one line, or nothing.
told() {
    local said
    said=$(cat "$room/err")
    if [ "$2" = 0 ] && printf '%b' "$3" | cmp -s - "$room/out" &&
        { if [ -n "$4" ]; then [ "$(wc -l < "$room/err")" = 1 ] && [[ $said == *"$4"* ]]; else [ -z "$said" ]; fi; }; then
        right=$((right + 1))
    else
        wrong=$((wrong + 1))
        printf 'sheet_check: %s: expected "%s" and "%s", got "%s" and "%s", status %s\n' \
            "$1" "$3" "$4" "$(cat "$room/out")" "$said" "$2"
    fi
}

# sheet WHAT FILE RULE: a file, and the same bytes by a pipe.
sheet() {
    run < "$2" > "$room/out" 2> "$room/err"
    told "$1" $? "$3\n" ''
    run < <(cat "$2") > "$room/out" 2> "$room/err"
    told "$1, by a pipe" $? "$3\n" ''
}

# slow WHAT FILE PIECE RULE: by a pipe, so many bytes at a time, with pauses.
slow() {
    local size at
    size=$(wc -c < "$2")
    run < <(for ((at = 0; at < size; at += $3)); do
        sleep 0.05
        tail -c "+$((at + 1))" "$2" | head -c "$3"
    done) > "$room/out" 2> "$room/err"
    told "$1, slowly" $? "$4\n" ''
}

hex() { printf '%b' "$(printf '%s' "$@" | sed 's/../\\x&/g')"; }
zeros() { head -c "$1" /dev/zero; }

cd "$room" || exit 1
hex "$sample" > sample
hex "$pump" > pump
: > empty
{ hex 02000000 0020 && zeros 26; } > least
{ hex 02010000 4000 && zeros 26 && hex 0000 3FD8 0028 00 00 && zeros 16344; } > most

sheet 'the sample' sample OK
sheet 'both memories' pump OK
hex "01${sample:2}" > old
sheet 'the sample of edition 1' old OLD
{ hex 01 && tail -c +2 least; } > piece
sheet '32 bytes, edition 1' piece OLD
hex "${pump:0:30}11${pump:32}" > piece
sheet '17 user regions' piece S3
hex "01${pump:2}" > piece
sheet 'user regions in edition 1' piece S5
hex "${pump:0:60}01${pump:62}" > piece
sheet 'rules 1' piece OK
hex "${pump:0:60}02${pump:62}" > piece
sheet 'rules 2' piece S5
hex "01${sample:2:58}01${sample:62}" > piece
sheet 'edition 1, rules 1' piece S5
sheet 'no bytes' empty S1
sheet '/dev/null' /dev/null S1
head -c 1 sample > piece
sheet 'one byte' piece S1
head -c 31 least > piece
sheet '31 bytes' piece S1
sheet '32 bytes, accepted' least OK
zeros 32 > piece
sheet '32 bytes, all zero' piece S2
{ head -c 31 least && hex 01; } > piece
sheet '32 bytes, the last not zero' piece S5
{ cat least && zeros 1; } > piece
sheet '33 bytes' piece S4
head -c 68 sample > piece
sheet 'the sample less a byte' piece S4
head -c 16383 most > piece
sheet '16,383 bytes' piece S4
sheet '16,384 bytes, accepted' most OK
{ hex 01 && tail -c +2 most; } > piece
sheet '16,384 bytes, edition 1' piece OLD
{ hex 03 && tail -c +2 most; } > piece
sheet '16,384 bytes, edition 3' piece S2
{ cat most && zeros 1; } > over
sheet '16,385 bytes' over S1
{ cat most && zeros 100000; } > piece
sheet '116,384 bytes' piece S1

slow 'the sample' sample 10 OK
slow 'the sample of edition 1' old 10 OLD
slow '32 bytes, accepted' least 31 OK
slow '16,384 bytes' most 4095 OK
slow '16,385 bytes' over 8192 S1
run < <(sleep 0.2) > out 2> err
told 'no bytes, slowly' $? 'S1\n' ''

# a read that fails is no empty sheet
run <&- > out 2> err
told 'standard input closed' $? '' 'standard input: Bad file descriptor'
run < / > out 2> err
told 'a directory' $? '' 'standard input: Is a directory'
run 0> piece > out 2> err
told 'standard input that is for writing' $? '' 'standard input: Bad file descriptor'

# nor is a write that fails passed over
: > out
run < sample > /dev/full 2> err
told 'standard output full' $? '' 'standard output: No space left on device'

echo "sheet_check: $right as expected, $wrong not"
[ "$wrong" = 0 ]
