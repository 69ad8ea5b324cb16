#!/usr/bin/env bash
# scripts/demo.sh UNIT SHEET SCRIPT: plays a script through the desk unit and shows what happens, for a person to read.
# Comments of the script are shown as they are; PDUs by their fields, as the unit's `read` tells them; of the sheet, what
# changed by its meaning, as `sheet diff` tells it; hundredths as a decimal fraction.
set -euo pipefail
unit=$1 sheet=$2 script=$3
work=$(mktemp -d)
trap 'rm -rf "$work"' EXIT

# a disconnect in front changes nothing on fresh sessions, and tells the sheet as it is at the start
{ echo disconnect 0; cat "$script"; } > "$work/script"
"$unit" < "$work/script" > "$work/answers"

# every command with its answer
grep -v -e '^#' -e '^$' "$work/script" | paste -d ' ' - "$work/answers" > "$work/both"

# every request and every answer, to be told by its fields
awk '$1 == "request" { print "read", $4; print "read", ($12 > 0 ? substr($13, 1, 2 * $12) : "-") }' "$work/both" |
    "$unit" > "$work/fields"

# for every answer the changes since the one before it, and a line that ends them
bytes() { printf '%b' "$(sed 's/../\\x&/g' <<< "$1")"; }
old=
while read -r new; do
    new=${new:-$old} # what tells of a value or a store tells no sheet
    if [ "${old:-$new}" != "$new" ]; then
        bytes "$old" > "$work/old"
        bytes "$new" > "$work/new"
        "$sheet" diff "$work/old" "$work/new" || [ $? = 1 ]
    fi
    echo .
    old=$new
done < <(awk '{ print ($1 == "sheet" ? $2 : $1 ~ /^(request|connect|disconnect|button|restore|convert)$/ ? $NF : "") }' "$work/both") \
    > "$work/changes"

# the outcomes by number, in words
sed -n '/define KELINDAP_.*OUTCOMES/,/^$/s/.*X(\([0-9]*\), .*"\(.*\)").*/\1 \2/p' "${0%/*}/../include/kelindap_names.h" > "$work/words"

awk -v answers="$work/answers" -v fields="$work/fields" -v changes="$work/changes" -v words="$work/words" '
    BEGIN { while ((getline line < words) > 0) meaning[line + 0] = substr(line, index(line, " ") + 1) }
    function told(line) { getline line < fields; return line ~ /^0 / ? substr(line, 3) : "an unreadable PDU" }
    function ask(text) { print "   > " text }
    function answer(text, outcome) { printf "   < %-56s %s (%d)\n", text, meaning[outcome], outcome }
    function change(what) { printf "     %-56s %s\n", "", what }
    function state(c) { return now[2 + 2 * c] ? "level " now[3 + 2 * c] : "closed" }
    /^#/ { print substr($0, 3); next }
    /^$/ { next }
    {
        getline line < answers
        split(line, now, " ")
        if ($1 == "point") {
            ask($0)
            answer($3 == 9 ? sprintf("%.2f", now[2] / 100) : now[2], now[1])
        } else if ($1 == "store") {
            ask("a store of " length($2) / 2 " bytes")
            print "   < " (now[1] == "OK" ? "good" : "not good")
        } else if ($1 == "save") {
            ask($0)
            answer(now[1] == 0 ? "version " now[2] : "nothing", now[1])
        } else if ($1 == "sheet") {
            ask("a sheet of " length($2) / 2 " bytes")
            print "   < " (now[1] == "OK" ? "accepted" : now[1] == "OLD" ? "old: convert it" : "not accepted: " now[1])
        } else if ($1 == "convert") {
            ask($0)
            answer(now[1] == 1 ? "done" : "nothing", now[1])
        } else if ($1 == "restore" || $1 == "remove") {
            ask($1 " version " $NF ($1 == "restore" ? ", on connection " $2 : ""))
            answer(now[1] == 1 ? "done" : "nothing", now[1])
        }
        if ($1 ~ /^(point|store|save|restore|remove|sheet|convert)$/) {
            while ((getline line < changes) > 0 && line != ".") change(line)
            next
        }
        if ($1 == "request") {
            ask(told() ($2 == 3 ? ", on connection " $6 : ""))
            reply = told()
        } else if (FNR > 1) {
            ask($0)
        }
        if (FNR > 1) answer(now[6] > 0 ? reply : "no answer", now[1])
        for (c = 0; c < 2; c++) {
            if (FNR > 1 && state(c) != was[c]) change("connection " c ": " was[c] " -> " state(c))
            was[c] = state(c)
        }
        while ((getline line < changes) > 0 && line != ".") change(line)
    }
' "$work/script"
