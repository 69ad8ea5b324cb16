#!/usr/bin/env bash
# tests/same.sh: what stands in one file for all programs, the two sheets of hosts/ and the marked cases in
# tests/vectors/device.tsv, stands the same where a definition, a program's input or a document has its own copy.
set -euo pipefail
cd "$(dirname "$0")/.."
work=$(mktemp -d)
trap 'rm -rf "$work"' EXIT
bad=0

same() { # WHAT, the file's words, the copy's
    [ "$2" = "$3" ] || { printf 'same: %s has\n  %s\nin place of\n  %s\n' "$1" "$3" "$2"; bad=1; }
}
lower() { tr A-F a-f; }
digits() { tr -cd '0-9a-fA-F' | lower; }

sheet_of() { grep -o '0x..' "hosts/$1.inc" | sed 's/0x//' | digits; }
# the bytes in the table of SHEET.md below a heading
shown_below() { sed -n "/^## $1/,/^## /p" docs/SHEET.md | awk -F '|' 'NF == 5 && /^\| [0-9]/ { print $3 }' | grep -o '`[^`]*`' | digits; }
sample=$(sheet_of sample_sheet) pump=$(sheet_of pump_sheet)
[ ${#sample} = 138 ] || { echo "same: the sample sheet has not 69 bytes"; bad=1; }
[ ${#pump} = 202 ] || { echo "same: the sheet with user memory has not 101 bytes"; bad=1; }
defined=crates/sheet/specs/Sample.antt marked=crates/device/specs/Marked.antt
same "$defined" "$sample" "$(sed -n '/^sample =/,/\[\]$/p' $defined | grep -o '0x..' | sed 's/0x//' | digits)"
# the first line of a file that begins so and goes on with the first six bytes of a sheet
line_with() { # FILE BEGINNING SHEET
    awk -v begin="$2" -v head="${3:0:12}" 'index($0, begin) == 1 {
        text = tolower(substr($0, length(begin) + 1)); gsub(/[ +]/, "", text)
        if (index(text, head) == 1) { print text; exit }
    }' "$1"
}
for sheet in "$sample" "$pump"; do
    for place in "device_cases sheet" "sheet_cases base new"; do
        copy=crates/${place%% *}/stdin
        same "$copy" "$sheet" "$(line_with "$copy" "${place#* } " "$sheet" | digits)"
    done
done
# its edition 1, which sheet_check's stored run calls OLD
same "$defined, the old one" "01${sample:2}" "$(sed -n '/^old_sample =/,/\[\]$/p' $defined | grep -o '0x..' | sed 's/0x//' | digits)"
same crates/sheet_check/stdin "01${sample:2}" "$(od -An -v -tx1 crates/sheet_check/stdin | digits)"
same docs/SHEET.md "$sample" "$(shown_below 'The sample sheet')"
same docs/SHEET.md "$pump" "$(shown_below 'A sheet with user memory')"
worked=$(sed -n '/^trace =/,/\[\]$/p' crates/playback/proofs/promises/Example.antt | grep -o '0x..' | sed 's/0x//' | digits)
same docs/TRACE.md "$worked" "$(sed -n '/^## A worked trace/,/^On the sample/p' docs/TRACE.md | awk -F '|' 'NF == 5 && /^\| [0-9]/ { print $3 }' | grep -o '`[^`]*`' | digits)"

# level (or loose), request, answer, outcome of each marked case
awk -F '\t' '/^01 marked case/ {
    level = $2; sub(/.*level=/, "", level); sub(/ .*/, "", level)
    print ($2 ~ /mode=3/ ? "at " level : "loose"), $3, $4, $5
}' tests/vectors/device.tsv | lower > "$work/cases"
sed -n '/^abbrev pub read_element/,/^-- a case.s request/p' $marked | tr -d '\n' | sed 's/∷ *\[\]//g; s/ ∷ 0x/0x/g' |
    grep -oE '(at [0-9]|loose) +\(?[^)]*\)? +(\([^)]*\)|\[\]) +[0-9]+' | sed 's/0x//g; s/\[\]/-/; s/[()]//g; s/  */ /g' | lower > "$work/antt"
awk '/^at .*marked case/ {
    split($0, parts, " : "); split(parts[2], words, " ")
    level = parts[1]; sub(/.*level=/, "", level)
    print ($0 ~ /mode=3/ ? "at " level : "loose"), words[1], words[4], words[3]
}' crates/device_cases/stdin > "$work/stdin"
[ "$(wc -l < "$work/cases")" = 16 ] || { echo "same: there are not sixteen marked cases"; bad=1; }
same crates/device_cases/stdin "$(cat "$work/cases")" "$(cat "$work/stdin")"
same "$marked" "$(sort "$work/cases")" "$(sort "$work/antt")"

# what SOURCE.md shows of the demonstration is what the demonstration shows; what README shows of an explanation stands in TRACE.md,
# which is run
sed -n '/^`make run` shows/,/^`make test` says/s/^    //p' docs/SOURCE.md | grep . > "$work/shown"
[ -s "$work/shown" ] || { echo "same: SOURCE.md shows nothing of the demonstration"; bad=1; }
while IFS= read -r line; do
    grep -qxF -- "$line" tests/unit/demo.expected || { echo "same: SOURCE.md shows what the demonstration does not: $line"; bad=1; }
done < "$work/shown"
sed -n '/^    \$ build\/trace explain/,/^$/p' README.md | grep -vE '^ *(\.\.)?$' > "$work/explained"
[ "$(wc -l < "$work/explained")" -ge 4 ] || { echo "same: README shows no explanation"; bad=1; }
while IFS= read -r line; do
    grep -qxF -- "$line" docs/TRACE.md || { echo "same: README explains what TRACE.md does not: $line"; bad=1; }
done < "$work/explained"

# README is one screen and a little more; no line of a document is a page, but for those of PORT.md, which set old beside new
[ "$(wc -w < README.md)" -le 1200 ] || { echo "same: README has $(wc -w < README.md) words, above 1,200"; bad=1; }
LC_ALL=C awk 'length > 600 && FILENAME != "docs/PORT.md" { print "same: " FILENAME ":" FNR " has " length " bytes, above 600"; bad = 1 } END { exit bad }' README.md docs/*.md || bad=1

# what links into the glossary finds its entry there, each entry can be linked, and whoever begins with a guide is led there
for at in $(grep -ohE 'GLOSSARY\.md#[^)]*' README.md docs/*.md | sed 's/.*#//' | sort -u); do
    grep -qF "<a id=\"$at\"></a>" docs/GLOSSARY.md || { echo "same: the glossary has no entry $at: $(grep -lF "GLOSSARY.md#$at)" README.md docs/*.md | tr '\n' ' ')"; bad=1; }
done
same "docs/GLOSSARY.md, twice" "" "$(grep -oE '<a id="[^"]*"' docs/GLOSSARY.md | sort | uniq -d)"
same "docs/GLOSSARY.md, without a place" "" "$(awk '/^\| / && !/^\| Word / && !/^\| <a id="/' docs/GLOSSARY.md)"
for guide in README.md docs/{LINKING,WHAT-HAPPENED,READING,CHANGING,RULES,PROMISES,SECURITY,FORMATS,SHEET,TRACE,STORE,SLOTS,BUS,TOOL}.md; do
    grep -q 'GLOSSARY\.md#' "$guide" || { echo "same: $guide does not lead to the glossary"; bad=1; }
done

# docs/UNIT.md has the kinds of kelindap_names.h
names() { sed -n "/define KELINDAP_$1/,/^\$/s/.*\"\(.*\)\".*/\1/p" include/kelindap_names.h | sort; }
same docs/UNIT.md "$(names KINDS)" "$(sed -n '/^## Kinds/,$p' docs/UNIT.md | awk -F '|' '/^\| `/ { print $2 }' | grep -o '[a-z_]*' | sort)"

# SOURCE.md has every folder and every crate; docs/CHANGING.md has every crate, none before one that it rests on
folders() { for folder in .c*/ */; do echo "${folder%/}"; done | grep -vxE 'build|target' | sort; }
named() { grep -oE '`[a-z_.]+`' | tr -d '`' | sort -u; }
same "docs/SOURCE.md, the folders" "$(folders)" "$(sed -n '/^## The folders/,/^## /p' docs/SOURCE.md | awk -F '|' '/^. `/ { print $2 }' | named)"
crates=$(sed -n 's/^\([a-z_]*\)\( staticlib\)*:.*/\1/p' crates.txt | sort)
layers=$(sed -n '/^## The layers/,/^## /p' docs/SOURCE.md)
for crate in $crates; do
    grep -qw "$crate" <<< "$layers" || { echo "same: SOURCE.md's layers lack $crate"; bad=1; }
done
ordered=$(grep -F 'lowest crate first:' docs/CHANGING.md | sed 's/.*lowest crate first://; s/A crate above.*//' | grep -oE '`[a-z_]+`' | tr -d '`')
same "docs/CHANGING.md, the order of crates" "$crates" "$(sort <<< "$ordered")"
sed -n 's/^\([a-z_]*\)\( staticlib\)*: */\1 /p' crates.txt | awk -v order="$(tr '\n' ' ' <<< "$ordered")" '
    BEGIN { n = split(order, list, " "); for (i = 1; i <= n; i++) at[list[i]] = i }
    { for (i = 2; i <= NF; i++) if ($i in at && at[$i] > at[$1]) { print "same: docs/CHANGING.md has " $1 " before " $i; bad = 1 } }
    END { exit bad }' || bad=1

# what stands in a crate, but for what rt made there
sources() { find crates -regex 'crates/[^/]*/out' -prune -o -type f "$@" -print0; }

# no line of a definition or of code has more than 200 characters, and none of a proof more than 250
long() { LC_ALL=C.UTF-8 xargs -0 grep -nE "^.{$1,}" | cut -c 1-120; }
if { sources \( -name '*.rt' -o -path '*/specs/*.antt' \) | long 201; sources -path '*/proofs/*.antt' | long 251; } | grep .; then
    echo "same: lines too long"
    bad=1
fi

# an export to C has the comment, the signature and the contract of the function that it calls, word for word
calls() { # FILE..
    awk '
        /^\/\/ / { above = above " " $0; next }
        /^pub (extern "C" )?fn kelindap_/ { sub(/extern "C" /, ""); on = 1; text = above }
        on && /^\{$/ { gsub(/ +/, " ", text); sub(/\( /, "(", text); sub(/, \)/, ")", text); print text; on = 0 }
        on { text = text " " $0 }
        !/^#\[/ { above = "" }' "$@" | sort
}
for crate in host tool plain_host; do
    same "crates/${crate}_c/src/lib.rt" "$(calls crates/$crate/src/*.rt)" "$(calls "crates/${crate}_c/src/lib.rt")"
    [ -n "$(calls crates/$crate/src/*.rt)" ] || { echo "same: crates/$crate has no call of C"; bad=1; }
done

# every outcome that a header has by name has words in kelindap_names.h
for name in $(awk '/^enum kelindap_[a-z_]*(outcome|refusal)/ { on = 1; next } /^}/ { on = 0 } on && /^ *KELINDAP_/ { print $1 }' include/*.h |
    grep -vx KELINDAP_OK); do
    grep -q " ${name#KELINDAP_}, \"" include/kelindap_names.h || { echo "same: $name has no words in kelindap_names.h"; bad=1; }
done

# the libraries that the headers name are made
for library in $(grep -ohE 'lib[a-z_]+\.a' include/*.h | sort -u); do
    grep -q "^[A-Z_]* := \$(BUILD)/$library\$" mk/native.mk || { echo "same: a header names $library, which is not made"; bad=1; }
done

# a name that was once two things in two crates is one thing in one
for name in Alike Seen Connections; do
    having=$({ sources -name "$name.antt" | tr '\0' '\n'; sources -name '*.antt' | xargs -0 grep -lE "(record|data) $name( |\$)" || true; } | cut -d / -f 2 | sort -u | wc -l)
    [ "$having" -le 1 ] || { echo "same: $name is a name in $having crates"; bad=1; }
done

# the header tells a host what to do with a partner that connects again
grep -q 'connected and connects again keeps its number' include/kelindap.h || { echo "same: kelindap.h is silent on a second connect"; bad=1; }

# the last version in CHANGELOG.md is that of the headers, and so is that of the Rust programs and of README; a licence that is not there is not there in README either
version=$(sed -n 's/.*KELINDAP_VERSION_TEXT "\(.*\)"/\1/p' include/kelindap_common.h)
same CHANGELOG.md "$version" "$(sed -n 's/^## \([0-9].*\)/\1/p' CHANGELOG.md | head -n 1)"
same Cargo.toml "$version" "$(sed -n 's/^version = "\(.*\)"/\1/p' Cargo.toml)"
grep -qF "version $version." README.md || { echo "same: README is of another version than $version"; bad=1; }
[ -e LICENSE ] || [ -e LICENCE ] || grep -q '^No licence is given yet' README.md || { echo "same: README says nothing of a licence"; bad=1; }
[ "$bad" = 0 ]
echo "same: the sample sheet in 4 places, its edition 1 in 2, that with user memory in 3, the marked cases in 2"
