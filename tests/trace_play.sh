#!/usr/bin/env bash
# trace_play.sh PROGRAM: the built trace_play on sheets and traces that are refused, by file and by pipe, with its exit status;
# and that the stored trace is the one which its stored output says: a trace made of those lines is the stored one, byte by byte.
set -uo pipefail
program=$(realpath -e "${1:?usage: trace_play.sh PROGRAM}") || exit 1
cd "$(dirname "$0")/.." || exit 1
stored=crates/trace_play
room=$(mktemp -d)
trap 'rm -rf "$room"' EXIT
right=0
wrong=0

play() { scripts/trace_play.sh "$program"; }

# the bytes that hex digits say
bytes() { printf '%b' "$(printf '%s' "$1" | sed 's/../\\x&/g')"; }

# the trace, in hex digits, that lines of the program's own words say
trace_of() {
    awk '
        BEGIN { n = 0 }
        function value(name,    i, pair) {
            for (i = 1; i <= NF; i++) {
                split($i, pair, "=")
                if (pair[1] == name) return pair[2]
            }
            return ""
        }
        $2 ~ /^(request|connect|disconnect|button)$/ {
            kind[n] = $2 == "request" ? 0 : $2 == "connect" ? 1 : $2 == "disconnect" ? 2 : $3 == "on" ? 3 : 4
            mode[n] = value("connection") * 16 + value("mode")
            group[n] = value("group") == "" ? "0000" : value("group")
            apdu[n] = value("apdu")
            sub(/-/, "", apdu[n])
            n++
        }
        END {
            at = 2 + 8 * n
            printf "%04x", n
            for (i = 0; i < n; i++) {
                printf "%02x%02x%s%04x%02x00", kind[i], mode[i], group[i], at, length(apdu[i]) / 2
                at += length(apdu[i]) / 2
            }
            for (i = 0; i < n; i++) printf "%s", apdu[i]
        }'
}

# told WHAT HEX STATUS OUT: so the program ends and so it says, its last line
told() {
    local by status said
    for by in file pipe; do
        bytes "$2" > "$room/in"
        if [ "$by" = file ]; then play < "$room/in" > "$room/out"; else play < <(cat "$room/in") > "$room/out"; fi
        status=$?
        said=$(tail -n 1 "$room/out")
        if [ "$status" = "$3" ] && [ "$said" = "$4" ]; then
            right=$((right + 1))
        else
            wrong=$((wrong + 1))
            echo "trace_play: $1, by a $by: status $status for $3, \"$said\" for \"$4\""
        fi
    done
}

sheet=$(grep -o '0x..' hosts/pump_sheet.inc | sed 's/0x//' | paste -sd '' | tr A-F a-f)
sheet=${sheet:0:28}00${sheet:30} # verify is off, so that writes of memory without answer are seen
sample=$(grep -o '0x..' hosts/sample_sheet.inc | sed 's/0x//' | paste -sd '' | tr A-F a-f)
trace=$(trace_of < $stored/stdout)
bytes "$sheet$trace" > "$room/made"
if cmp -s "$room/made" $stored/stdin; then
    right=$((right + 1))
else
    wrong=$((wrong + 1))
    echo "trace_play: $stored/stdin is not what its stdout says"
fi

told "the stored trace" "$sheet$trace" 0 "sheet changed"
told "no events" "${sheet}0000" 0 "sheet unchanged"
told "nothing" "" 1 "sheet refused: S1"
told "five bytes" "0201010100" 1 "sheet refused: S1"
told "no trace" "$sheet" 1 "trace refused: 50"
told "a sheet of another edition" "03${sheet:2}$trace" 1 "sheet refused: S2"
told "an old sheet" "01${sample:2}$trace" 1 "sheet refused: OLD"
told "a sheet of edition 1 with user regions" "01${sheet:2}$trace" 1 "sheet refused: S5"
told "a sheet that states one byte too many" "${sheet:0:8}0066${sheet:12}$trace" 1 "sheet refused: S9"
told "a sheet that the input ends in" "${sheet:0:100}" 1 "sheet refused: S4"
told "one byte" "${sheet}00" 1 "trace refused: 50"
told "513 events" "${sheet}0201" 1 "trace refused: 51"
told "no table" "${sheet}0001" 1 "trace refused: 52"
told "kind 5" "${sheet}00010500000000""0a0000" 1 "trace refused: 53"
told "a connect with an APDU" "${sheet}00010100""0000""000a""0100""00" 1 "trace refused: 54"
told "the last byte" "${sheet}00010100""0000""000a""0001" 1 "trace refused: 55"
told "an offset" "${sheet}00010100""0000""000b""0000" 1 "trace refused: 56"
told "an APDU past the end" "${sheet}00010003""0000""000a""0300""0300" 1 "trace refused: 57"
told "a byte left over" "${sheet}00010003""0000""000a""0200""030000" 1 "trace refused: 58"

[ "$wrong" = 0 ] || exit 1
echo "trace_play: $(grep -c ' outcome=' $stored/stdout) events stored, $right runs as they should be"
