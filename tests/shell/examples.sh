#!/usr/bin/env bash
# tests/shell/examples.sh BIN TEXT..: runs the examples of the programs' help, which are those of their man pages, one after the other
# in a folder that has the files they name, with the programs of the folder BIN. Each says something, or leaves a file, complains
# of nothing, and ends with 0, or with 1 where it compares, plays or surveys.
set -euo pipefail
bin=$(realpath "$1")
shift
texts=()
for text; do texts+=("$(realpath "$text")"); done
root=$(realpath "$(dirname "$0")/../..")
work=$(mktemp -d)
trap 'rm -rf "$work"' EXIT
fail() { echo "examples: $1"; exit 1; }
PATH=$bin:$PATH
cd "$work"

# what they name
mkdir dumps
kelindap-sheet make "$root/examples/accident/before.txt" > before.sheet
kelindap-sheet make "$root/examples/accident/after.txt" > after.sheet
cp before.sheet tank.sheet
cp after.sheet dumps/tank1
{ printf '\1' && tail -c +2 before.sheet; } > old.sheet
cp "$root/examples/accident/laptop.hex" .
# a store with one version, as the unit saves it
printf 'sheet %s\nstore %0128d\nsave\n' "$(od -An -v -tx1 tank.sheet | tr -d ' \n')" 0 | kelindap-unit | awk 'NR == 3 { print $3 }' > store.hex
printf '%b' "$(sed 's/../\\x&/g' store.hex)" > tank.store
# two slots that keep the one sheet under 7 and the other under 8
python3 - before.sheet after.sheet > flash.dump << 'end'
import sys, zlib
for number, name in (7, sys.argv[1]), (8, sys.argv[2]):
    sheet = open(name, "rb").read()
    tail = number.to_bytes(4, "big") + len(sheet).to_bytes(4, "big") + bytes(20)
    slot = b"KELIND" + b"\xff" * 26 + zlib.crc32(tail + sheet).to_bytes(4, "big") + tail + sheet
    sys.stdout.buffer.write(slot.ljust(1024, b"\xff"))
end

count=0
for text in "${texts[@]}"; do
    name=$(basename "$text" .txt)
    awk '/^EXAMPLES$/ { on = 1; next } /^[^ ]/ { on = 0 } on && /^    [^ ]/ { sub(/^ */, ""); print }' "$text" > examples
    [ -s examples ] || fail "$name has no examples"
    while IFS= read -r example; do
        # an editor has been at work between the second and the third
        [ "$example" != "kelindap-sheet make tank.txt > new.sheet" ] || sed -i 's/^    1000$/    1250/' tank.txt
        status=0
        bash -euo pipefail -c "$example" > said 2> complaint < /dev/null || status=$?
        case $example in
        *' diff '* | *' play '* | *' survey '* | *--final*) [ "$status" -le 1 ] || fail "$example: status $status: $(cat complaint)" ;;
        *) [ "$status" = 0 ] || fail "$example: status $status: $(cat complaint)" ;;
        esac
        [ ! -s complaint ] || fail "$example: $(cat complaint)"
        [ -s said ] || [[ $example == *'> '* ]] || fail "$example says nothing"
        case $example in
        *'diff tank.sheet new.sheet') grep -q '1000 → 1250' said || fail "$example: $(cat said)" ;;
        *'slots flash.dump') grep -q 'number 8.*this one counts' said || fail "$example: $(cat said)" ;;
        *'show flash.dump') cmp -s said <(kelindap-sheet show after.sheet) || fail "$example shows another sheet" ;;
        *--json*) python3 -m json.tool < said > /dev/null || fail "$example is no JSON" ;;
        esac
        case $(grep -A 2 -F -- "    $example" "$text") in
        *'needs level 1, has 3'*) grep -q 'needs level 1, has 3' said || fail "$example: $(cat said)" ;;
        *'it is carried out'*) grep -q '→ 1250' said || fail "$example: $(cat said)" ;;
        esac
        count=$((count + 1))
    done < examples
done
# every command of a synopsis has one
for program in sheet trace; do
    text=$root/tools/$program/kelindap-$program.txt
    for command in $(awk '/^SYNOPSIS$/ { on = 1; next } /^[^ ]/ { on = 0 } on && $2 ~ /^[a-z]/ { print $2 }' "$text"); do
        sed -n '/^EXAMPLES$/,/^EXIT/p' "$text" | grep -q "^    kelindap-$program $command " || fail "no example of $program $command"
    done
done
# and what is for other programs is JSON, also of what is broken
for words in 'check --json tank.sheet' 'check --json old.sheet' 'show --json --keys tank.sheet' 'show --json old.sheet' \
    'diff --json old.sheet after.sheet' 'slots --json flash.dump' 'survey dumps --reference tank.sheet --json'; do
    # shellcheck disable=SC2086
    { kelindap-sheet $words || [ $? = 1 ]; } | python3 -m json.tool > /dev/null || fail "$words is no JSON"
done
head -c 40 tank.sheet > short.sheet
{ kelindap-sheet check --json short.sheet || [ $? = 1 ]; } | python3 -c 'import json, sys; assert json.load(sys.stdin)["rule"] == "S4"' ||
    fail "a broken sheet is told as another"
[ "$(kelindap-sheet show --json tank.sheet | python3 -c 'import json, sys; print(*[k["key"] for k in json.load(sys.stdin)["keys"]])')" = "hidden hidden ffffffff" ] ||
    fail "keys are shown unasked"
echo "examples: $count of ${#texts[@]} man pages, each carried out"
