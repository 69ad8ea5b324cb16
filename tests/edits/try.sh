#!/usr/bin/env bash
# tests/edits/try.sh LOGS [CRATE..]: leaves in LOGS/crate/edit.log all that the prover says of the crate with that edit, of which rt ci
# prints the first line alone; of every crate, or of these. Each is checked over what a check of the crate as it stands proved, and what
# was said of the same files, by their sums, is kept from run to run in KEPT, by itself a folder among the user's caches. As many are
# checked side by side as JOBS says, or as there are processors.
set -euo pipefail
logs=$1
shift
kept=${KEPT:-${XDG_CACHE_HOME:-${HOME:-}/.cache}/kelindap}/edits
kit=$(readlink -f "$(command -v rt)")
rattle=${kit%/bin/rt}/bin/rattle
side=${JOBS:-$(nproc)}
work=$(mktemp -d)
trap 'rm -rf "$work"' EXIT
mkdir -p "$logs"
# where nothing can be kept, each is tried
mkdir -p "$kept" 2> /dev/null || kept=$work/edits
mkdir -p "$kept"

# the edit applied to the copy of its crate in a folder, as rt does it: each text is put in place of another, which stands in its file once
apply() { # EDIT FOLDER
    LC_ALL=C awk -v folder="$2/" '
        function read(name,    line, text) {
            while ((getline line < (folder name)) > 0) text = text line "\n"
            close(folder name)
            return text
        }
        /^file: / { file = substr($0, 7); if (!(file in text)) text[file] = read(file) }
        /^old: / { old = substr($0, 6) }
        /^new:/ {
            new = substr($0, 6)
            at = index(text[file], old)
            rest = substr(text[file], at + length(old))
            if (old == "" || !at || index(rest, old)) { print FILENAME ": does not stand once in " file ": " old > "/dev/stderr"; bad = 1; exit }
            text[file] = substr(text[file], 1, at - 1) new rest
        }
        END { if (bad) exit 1; for (file in text) printf "%s", text[file] > (folder file) }' "$1"
}

one() { # CRATE EDIT KEY
    local at=$work/$1-$2 log=$logs/$1/$2.log
    mkdir -p "$at"
    for part in src specs proofs; do [ ! -d "crates/$1/$part" ] || cp -r "crates/$1/$part" "$at"; done
    cp -r "crates/$1/out/incremental" "$at/kept"
    if apply "crates/$1/must-fail/$2.edit" "$at" > "$log" 2>&1; then
        mapfile -t words < "$work/$1.words"
        (cd "$at" && "$rattle" check "${words[@]}" --jobs 1 --incremental kept) > "$log" 2>&1 < /dev/null || true
        [ "$(tail -n 1 "$log")" != logic=not-proved ] || cp "$log" "$kept/$3"
    fi
    rm -rf "$at"
}

crates=("$@")
[ $# -gt 0 ] || for folder in crates/*/must-fail; do
    crate=${folder%/must-fail}
    crates+=("${crate#crates/}")
done
all=0 tried=0
for crate in "${crates[@]}"; do
    rm -rf "${logs:?}/$crate"
    mkdir -p "$logs/$crate"
    sum=$(mk/bin/proved --sum "$crate")
    is_begun=
    for edit in "crates/$crate/must-fail"/*.edit; do
        name=$(basename "$edit" .edit)
        key=$({ echo "$sum" && cat "$edit"; } | sha256sum | cut -d ' ' -f 1)
        all=$((all + 1))
        if [ -e "$kept/$key" ]; then
            cp "$kept/$key" "$logs/$crate/$name.log"
            continue
        fi
        tried=$((tried + 1))
        if [ -z "$is_begun" ]; then
            is_begun=yes
            mk/bin/proved "$work/proved.log" "$crate" > /dev/null
            mk/bin/words "$crate" > "$work/$crate.words"
            mapfile -t words < "$work/$crate.words"
            mkdir -p "crates/$crate/out"
            (cd "crates/$crate" && "$rattle" check "${words[@]}" --jobs "$side" --incremental out/incremental) > "$work/seed.log" 2>&1 < /dev/null ||
                { cat "$work/seed.log" >&2; exit 1; }
        fi
        while [ "$(jobs -rp | wc -l)" -ge "$side" ]; do wait -n || true; done
        one "$crate" "$name" "$key" &
    done
done
wait
echo "edits: what the prover says of $all edits, $tried of them tried now"
