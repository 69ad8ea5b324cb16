#!/usr/bin/env bash
# tests/unit/made.sh DIR: writes to DIR the scripts, with what the unit must answer, that are not kept as files:
# every vector of tests/vectors as commands, very long lines, and lines with odd bytes.
set -euo pipefail
out=$1
cd "$(dirname "$0")/../vectors"

bytes_of() { grep -o '0x..' "../../hosts/$1.inc" | cut -c 3-4 | paste -sd '' | tr A-F a-f; }
sample=$(bytes_of sample_sheet)
buffer=eeeeeeeeeeeeeeeeeeeeeeeeeeeeeeee

# Each vector of the device, of the sample sheet, the one with user memory or the one whose regions touch: the sheet with its
# button and verify bits and its rules, the session of connection 0, the request on it with a buffer of 20 bytes; and once
# more in upper case with one of 16.
device_vectors() { # NAME of the vectors, the sheet
    awk -F '\t' -v sample="$2" -v script="$out/$1-vectors.in" -v expected="$out/$1-vectors.out" '
        function put(text, at, hex) { return substr(text, 1, 2 * at) hex substr(text, 2 * at + length(hex) + 1) }
        /^#/ { next }
        {
            delete at
            n = split($2, pairs, " ")
            for (i = 1; i <= n; i++) { split(pairs[i], pair, "="); at[pair[1]] = pair[2] }
            sheet = put(put(sample, 14, "0" (at["button"] + 2 * at["verify"])), 30, "0" (at["rules"] + 0))
            long = "c3c3c3c3c3c3c3c3c3c3c3c3c3c3c3c3c3c3c3c3"
            short = substr(long, 1, 32)
            print "# " $1 > script
            setup = "sheet " sheet "\nsession 0 " at["open"] " " at["level"] "\nrequest " at["mode"] " " at["group"] " "
            print setup $3, long, 0 > script
            print setup toupper($3), short, 0 > script
            ready = "OK\nsession 0 " at["open"] " " at["level"] "\n"
            n = split($6, pairs, " ")
            for (i = 1; i <= n; i++) {
                split(pairs[i], pair, "=")
                if (pair[1] ~ /^sheet\[/) sheet = put(sheet, substr(pair[1], 7) + 0, pair[2])
                else at[pair[1]] = pair[2]
            }
            count = 0
            if ($4 != "-") { long = put(long, 0, $4); short = put(short, 0, $4); count = length($4) / 2 }
            print ready $5, at["open"], at["level"], "0 3", count, long, sheet > expected
            print ready $5, at["open"], at["level"], "0 3", count, short, sheet > expected
        }
    ' "$1.tsv"
}
device_vectors device "$sample"
device_vectors pump "$(bytes_of pump_sheet)"
device_vectors ranges "$(sed -n 's/^# sheet //p' ranges.tsv | cut -f 1 | tr -d ' \n')"

# Each PDU vector is read; one that reads is also written again, with its fields in order and backwards, and in upper case.
awk -F '\t' -v script="$out/pdu-vectors.in" -v expected="$out/pdu-vectors.out" '
    function upper(field,    pair) { split(field, pair, "="); return pair[1] "=" toupper(pair[2]) }
    /^#/ { next }
    {
        print "# " $1 > script
        print "read " $2 > script
        print "read " toupper($2) > script
        print $3 > expected
        print $3 > expected
        if ($3 !~ /^0 /) next
        buffer = "c3c3c3c3c3c3c3c3c3c3c3c3c3c3c3c3c3c3c3c3"
        n = split($3, words, " ")
        forward = backward = ""
        for (i = 3; i <= n; i++) { forward = forward words[i] " "; backward = upper(words[i]) " " backward }
        print "write " words[2], forward buffer > script
        print "write " words[2], backward buffer > script
        wrote = "0 " length($2) / 2 " " $2 substr(buffer, length($2) + 1)
        print wrote > expected
        print wrote > expected
    }
' pdu.tsv

# N times a text
many() { head -c "$1" /dev/zero | sed "s/\\x00/$2/g"; }
# a line of script and the line that it must be answered with
line() { printf '%s\n' "$1" >&3; printf '%s\n' "$2" >&4; }

zeros=$(many 100000 0) abs=$(many 50000 ab) nines=$(many 100000 9)
body=$(many 16344 cd)
full=020100004000$(many 52 0)00003fd800283300$body
exec 3> "$out/long.in" 4> "$out/long.out"
line "sheet $zeros" S1
line "request 2 0 0300 $buffer 0" "4 0 3 0 3 0 $buffer $zeros"
line "connect 0" "1 1 3 0 3 0 - $zeros"
line "sheet $sample" OK
line "request 2 0 03d501331001 $abs 0" "0 1 3 0 3 8 03d60133100103e8${abs:16} $sample"
line "request 3 0 ${abs^^} $buffer 0" "5 1 3 0 3 0 $buffer $sample"
line "read $abs" 5
line "write restart $abs" "0 2 0380${abs:4}"
line "write group_write v=0 data=$abs $buffer" "13 0 $buffer"
line "write group_write data=$abs v=0 ${buffer:2}" "3 0 ${buffer:2}"
line "write memory_bit_write n=1 address=0 and=$abs xor=$abs $buffer" "13 0 $buffer"
line "write memory_bit_write n=80 address=0 and=$abs xor=$abs ${buffer:2}" "3 0 ${buffer:2}"
line "write serial_read serial=$abs $buffer" "13 0 $buffer"
line "write memory_read n=$nines address=0 $buffer" "13 0 $buffer"
line "write memory_read n=${zeros}1 address=0 $buffer" "0 4 02010000${buffer:8}"
line "session ${zeros}0 1 ${zeros}2" "session 0 1 2"
line "request $nines 0 0300 $buffer 0" "ERR MODE is above 255: \"999999999999999999999999\""
line "connect $nines" "ERR C is above 255: \"999999999999999999999999\""
line "connect ${zeros}2" "7 1 2 0 3 0 - $sample"
line "lookup region $nines" -
line "lookup region 0" a0a1a2a3
line "lookup region 1" -
line "lookup region 256" -
line "lookup region 4294967296" -
line "lookup region 18446744073709551616" -
line "sheet ${zeros}0" "ERR HEX has an odd number of hex digits"
line "sheet ${zeros}0x" "ERR HEX has a character that is no hex digit"
line "$abs" "ERR no command has this name: \"abababababababababababab\""
line "request 3 0 02040100 $buffer 0" "0 1 2 0 3 8 02440100a0a1a2a3${buffer:16} $sample"
printf '# %s\n' "$abs" >&3
# the longest sheet that is accepted, and one byte more
line "sheet $full" OK
line "lookup region 0" "$body"
line "request 3 0 02013fd7 $buffer 0" "0 1 2 0 3 5 02413fd7cd${buffer:10} $full"
line "request 3 0 02013fd8 $buffer 0" "11 1 2 0 3 4 02403fd8${buffer:8} $full"
line "sheet ${full}cd" S1
line "lookup region 0" -
exec 3>&- 4>&-

# blanks and tabs between words, CR LF, bytes that no command has; the last line has no newline
for text in '\tconnect \t 0 \n' 'session\t0 1   2  \r\n' '\r\n' '\n' '#\n' '# a\0b\n' 'con\0nect 0\n' '\0\n' 'connect 0\0\n' \
    'sheet 0\0\n' 'con\033nect\n' 'h\303\251\n' 'connect\rx\n' 'connect\r\r\n' '\t\n' 'disconnect 0'; do
    printf "$text"
done > "$out/odd.in"
cat > "$out/odd.out" << END
1 1 3 0 3 0 - $sample
session 0 1 2
ERR the line has a NUL byte
ERR the line has a NUL byte
ERR the line has a NUL byte
ERR the line has a NUL byte
ERR no command has this name: "con?nect"
ERR no command has this name: "h??"
ERR no command has this name: "connect?x"
ERR no command has this name: "connect?"
ERR the line has nothing but blanks
1 0 3 0 3 0 - $sample
END

# no lines at all, and none but comments
: > "$out/empty.in"
: > "$out/empty.out"
printf '# one\n\n#two' > "$out/comments.in"
: > "$out/comments.out"
