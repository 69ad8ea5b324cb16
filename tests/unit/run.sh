#!/usr/bin/env bash
# tests/unit/run.sh UNIT SHEET: plays every script through the desk unit and holds each line it answers to the expected one.
set -euo pipefail
unit=$(realpath "$1") sheet=$(realpath "$2")
cd "$(dirname "$0")"
work=$(mktemp -d)
trap 'rm -rf "$work"' EXIT
lines=0 different=0

# NAME EXPECTED GOT: shows the lines that differ, the first ten of a script, and counts
compare() {
    awk -v name="$1" -v expected="$2" -v got="$3" '
        function cut(text) { return length(text) > 200 ? substr(text, 1, 200) ".." : text }
        BEGIN {
            for (;;) {
                a = getline wanted < expected
                b = getline answer < got
                if (a <= 0 && b <= 0) break
                n++
                if (a > 0 && b > 0 && wanted == answer) continue
                if (++wrong > 10) continue
                print name ", answer " n
                print "  expected " (a > 0 ? cut(wanted) : "no line")
                print "  got      " (b > 0 ? cut(answer) : "no line")
            }
            print n + 0, wrong + 0 > "/dev/stderr"
        }' 2> "$work/tally"
    read -r n wrong < "$work/tally"
    lines=$((lines + n)) different=$((different + wrong))
}

play() { # NAME SCRIPT EXPECTED
    local status=0
    "$unit" < "$2" > "$work/got" || status=$?
    compare "$1" "$3" "$work/got"
    [ "$status" = 0 ] || { echo "$1: the unit ended with status $status"; different=$((different + 1)); }
}

for script in *.in; do play "${script%.in}" "$script" "${script%.in}.out"; done
# the same requests by the plain engine
for script in *.in; do
    for end in in out; do { echo "engine plain" && cat "${script%.in}.$end"; } > "$work/plain.$end"; done
    play "${script%.in}, by the plain engine" "$work/plain.in" "$work/plain.out"
done

mkdir "$work/made"
./made.sh "$work/made"
for script in "$work"/made/*.in; do
    name=${script##*/}
    play "${name%.in}" "$script" "${script%.in}.out"
done

# the demonstration
../../scripts/demo.sh "$unit" "$sheet" ../../scripts/demo.txt > "$work/got" || different=$((different + 1))
compare demo demo.expected "$work/got"

# the commands that `help` tells, on one line, are those of docs/UNIT.md, and their forms those of the text that --help shows;
# another word is refused
sed -n '/^## Commands/,/^EVENT is/p' ../../docs/UNIT.md | awk -F '|' '/^. `/ { print $2 }' | grep -oE '`[a-z]+' | tr -d '`' |
    sort -u > "$work/commands"
echo help | "$unit" > "$work/help"
[ "$(wc -l < "$work/help")" = 1 ] || { echo "help is not answered by one line"; different=$((different + 1)); }
sed -n 's/^commands: //p' "$work/help" | sed 's/; /\n/g; s/, or /\n/g; s/, /\n/g' | sort > "$work/forms"
compare help "$work/commands" <(sed 's/ .*//' "$work/forms" | sort -u)
text=../../hosts/kelindap-unit.txt
compare "the forms in $text" "$work/forms" <(sed -n '/^COMMANDS/,/^    EVENT is/s/^    \([a-z].*\)/\1/p' "$text" | sort)
"$unit" --help > "$work/got" || { echo "--help is refused"; different=$((different + 1)); }
compare --help "$text" "$work/got"
status=0
"$unit" --hepl > "$work/got" 2> "$work/err" < /dev/null || status=$?
[ "$status" = 2 ] && [ ! -s "$work/got" ] && grep -qx 'unit[^ ]*: no option "--hepl", perhaps --help; unit[^ ]* --help says more' "$work/err" ||
    { echo "--hepl: status $status"; different=$((different + 1)); }
"$unit" --version > "$work/got" || { echo "--version is refused"; different=$((different + 1)); }
grep -qx "unit[^ ]* of kelindap $(sed -n 's/.*KELINDAP_VERSION_TEXT "\(.*\)"/\1/p' ../../include/kelindap_common.h)" "$work/got" ||
    { echo "--version says $(cat "$work/got")"; different=$((different + 1)); }
# a pipe that nobody reads is no error, also where the signal is not taken
for words in "" --words; do
    # shellcheck disable=SC2086
    (trap '' PIPE && yes 'connect 0' | { "$unit" $words 2> "$work/err"; echo $? > "$work/status"; }) 2> /dev/null | head -n 1 > /dev/null || true
    [ "$(cat "$work/status")" = 0 ] && [ ! -s "$work/err" ] ||
        { echo "a closed pipe: status $(cat "$work/status"), $(cat "$work/err")"; different=$((different + 1)); }
done

# an input that can't be read, closed or a folder: nothing is answered, and the status says so
unreadable() { # HOW it was opened, the unit's status on the lines after
    [ "$1" != 0 ] && [ ! -s "$work/got" ] && grep -qx "unit[^ ]*: the input can't be read" "$work/err" ||
        { echo "an unreadable input: status $1, $(cat "$work/got" "$work/err")"; different=$((different + 1)); }
}
status=0
"$unit" < / > "$work/got" 2> "$work/err" || status=$?
unreadable "$status"
status=0
"$unit" <&- > "$work/got" 2> "$work/err" || status=$?
unreadable "$status"

# one line at a time: each answer is there before the next line is sent
trap '' PIPE
mkfifo "$work/to" "$work/from"
"$unit" < "$work/to" > "$work/from" &
exec 5> "$work/to" 6< "$work/from"
while read -r command; do
    echo "$command" >&5 || break
    case $command in '' | '#'*) continue ;; esac
    read -r -t 20 answer <&6 || break
    echo "$answer"
done < story.in > "$work/got" 2> /dev/null
exec 5>&-
wait $! || different=$((different + 1))
compare "one line at a time" story.out "$work/got"

echo "unit: $lines lines, $different different"
[ "$different" = 0 ]
