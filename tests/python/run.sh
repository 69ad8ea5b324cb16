#!/usr/bin/env bash
# tests/python/run.sh: the Python package (build/python): its structures, numbers, words and table are those of the headers; every
# script of the desk unit, every vector and the vectors of frames, played through it; what could be lost at its edge; what is refused;
# slots, cut at every byte; that all of it is told and annotated; faults planted in it are found; the wheel and pip; the lines that
# docs/LINKING.md shows. Without python3
# it says so, and mypy takes part where it is installed.
set -euo pipefail
cd "$(dirname "$0")/../.."
command -v python3 > /dev/null || { echo "python: left out: there is no python3 here"; exit 0; }
work=$(mktemp -d)
trap 'rm -rf "$work"' EXIT
export PYTHONPATH=build/python PYTHONDONTWRITEBYTECODE=1
gcc -std=c11 -Wall -Wextra -Werror -Iinclude -o "$work/words" tests/python/words.c
"$work/words" > "$work/words.txt"
python3 tests/python/layout.py "$work/words.txt"

tests/unit/made.sh "$work"
grep -v '^#' tests/vectors/frame.tsv | cut -f 2 > "$work/frames.in"
grep -v '^#' tests/vectors/frame.tsv | cut -f 3 > "$work/frames.out"
mapfile -t scripts < <(printf '%s\n' tests/unit/*.in "$work"/*.in)
python3 tests/python/play.py "${scripts[@]%.in}"
for test in lost refusals slots whole; do python3 tests/python/$test.py; done
tests/python/faults.sh "$work/words.txt"
if command -v mypy > /dev/null; then
    mypy --strict --python-version 3.9 --cache-dir="$work/mypy" build/python/kelindap hosts/python/making > "$work/said" || { cat "$work/said"; exit 1; }
    echo "python: mypy finds nothing"
else
    echo "python: left out: mypy is not here"
fi

# LINKING's lines, here and as they are installed
sed -n '/^    import kelindap$/,/^$/s/^    //p' docs/LINKING.md > "$work/readme.py"
[ -s "$work/readme.py" ] || { echo "python: LINKING.md shows no lines"; exit 1; }
grep -o '0x..' hosts/sample_sheet.inc | sed 's/0x/\\x/' | paste -sd '' > "$work/list"
printf '%b' "$(cat "$work/list")" > "$work/sheet"
cp "$work/sheet" "$work/first"
# what each line prints stands behind it
sed -n 's/.*print(.*)  *# //p' "$work/readme.py" > "$work/readme.due"
[ "$(wc -l < "$work/readme.due")" = "$(grep -c 'print(' "$work/readme.py")" ] && [ "$(wc -l < "$work/readme.due")" -ge 2 ] || { echo "python: LINKING.md says nothing of what its lines print"; exit 1; }
(cd "$work" && PYTHONPATH=$OLDPWD/build/python python3 readme.py > said)
cmp -s "$work/said" "$work/readme.due" && ! cmp -s "$work/sheet" "$work/first" || { diff "$work/said" "$work/readme.due" || true; echo "python: LINKING's lines say something else"; exit 1; }
tests/python/packed.sh "$work/readme.py"
