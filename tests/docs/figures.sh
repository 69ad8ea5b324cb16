#!/usr/bin/env bash
# tests/docs/figures.sh FIGURES: what the program that holds the documents' figures lets pass, and what it refuses.
set -euo pipefail
figures=$(realpath "$1")
cd "$(mktemp -d)"
trap 'rm -rf "$PWD"' EXIT
mkdir measured
wrong=0

# STATUS WHAT QUOTED MEASURED: a document with a row is held against a measured one
held() {
    printf '%s\n' '<!-- figures table: any 2% 20% most 1.02 sample -->' '' "$3" '' '<!-- end -->' > document
    printf '%s\n' "$4" > measured/table
    local status=0
    "$figures" check measured document > said || status=$?
    [ "$status" = "$1" ] || { echo "figures: $2: status $status" && cat said && wrong=1; }
}
held 0 "as measured" 'sample read 5.0 100 0.98' 'sample read 6.0 101 0.99'
held 1 "another number" 'sample read 5.0 100 0.98' 'sample read 5.0 103 0.98'
held 1 "a row above its most" 'sample read 5.0 100 1.00' 'sample read 5.0 100 1.03'
held 0 "at its most" 'sample read 5.0 100 1.02' 'sample read 5.0 100 1.02'
held 0 "a row that has no most" 'lookup read 5.0 100 1.43' 'lookup read 5.0 100 1.43'
held 1 "a block that is missing" '?' 'sample read 5.0 100 0.98'
held 1 "and above its most" '?' 'sample read 5.0 100 1.03'
held 0 "a block that can't be measured here" 'sample read 5.0 100 0.98' '?'
held 0 "nor could be where it was written" '?' '?'
held 1 "a number that is missing" 'sample read 5.0 ? 0.98' 'sample read 5.0 100 0.98'
held 0 "a number that can't be measured here" 'sample read 5.0 100 0.98' 'sample read 5.0 ? ?'

# what is put in: the measured row, and of a row that could be measured in part the rest as it was
printf '%s\n' '<!-- figures table: 0 0 -->' '| a | 1 | 2 |' '| b | 3 | 4 |' '<!-- end -->' 'after' > document
printf '%s\n' '| a | 5 | ? |' '| b | 6 | 7 |' > measured/table
"$figures" write measured document
[ "$(tr '\n' '/' < document)" = '<!-- figures table: 0 0 -->//| a | 5 | 2 |/| b | 6 | 7 |//<!-- end -->/after/' ] ||
    { echo "figures: written: $(cat document)" && wrong=1; }
[ "$wrong" = 0 ]
echo "figures: 12 cases of the program that holds them"
