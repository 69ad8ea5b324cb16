#!/usr/bin/env bash
# tests/edits/list.sh LIST: before anything is proved, that the edits can be tried and that LIST is of them: each text that an edit
# takes out stands in its file, once; the changes of the edits are those of the list; no place serves two changes; each place stands.
set -uo pipefail
list=$1
bad=0
complain() { echo "edits: $*"; bad=$((bad + 1)); }
rows() { grep -v -e '^#' -e '^$' "$list"; }

# EDIT FILE TEXT, a line for each text that is taken out
taken() {
    awk '/^file: / { file = substr($0, 7) } /^old: / { printf "%s\t%s\t%s\n", FILENAME, file, substr($0, 6) }' crates/*/must-fail/*.edit
}
texts=0
while IFS=$'\t' read -r edit file text; do
    texts=$((texts + 1))
    in=${edit%/must-fail/*}/$file
    times=0
    [ ! -f "$in" ] || times=$(grep -oF -- "$text" "$in" | wc -l)
    [ "$times" -eq 1 ] || complain "$edit: what it takes out stands $times times in $in: $text"
done < <(taken)
[ "$texts" -gt 0 ] || complain "no edit takes anything out"

twice=$(rows | cut -f 1,3 | sort | uniq -d)
[ -z "$twice" ] || complain "two changes at one place, so neither is seen for itself: $twice"
changes() {
    for f in crates/*/must-fail/*.edit; do
        e=${f#crates/}
        e=${e%.edit}
        sed -n "s|^# \([a-z0-9_-]*\): .*|${e/\/must-fail/}\t\1|p" "$f"
    done | sort
}
while IFS= read -r line; do complain "$line"; done < <(diff <(rows | cut -f 1,2 | sort -u) <(changes) |
    sed -n 's/^</listed, and in no edit:/p; s/^>/in an edit, and not listed, or twice:/p')

while IFS=$'\t' read -r edit change place fact; do
    at=crates/${edit%%/*}
    case $place in
    'fn '*) grep -rqE "\bfn ${place##*::}\b" "$at/src" ;;
    *) grep -qsE "^ *([a-z]+ )*${place#* }( |$)" "$at/${place% *}" ;;
    esac || complain "$edit, $change: there is no $place in $at ($fact)"
done < <(rows)

[ "$bad" -eq 0 ] || exit 1
echo "edits: $(changes | wc -l) changes, $texts texts that they take out"
