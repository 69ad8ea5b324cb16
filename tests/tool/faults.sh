#!/usr/bin/env bash
# tests/tool/faults.sh [EVERY] [WHOLE]: plants each fault of faults.tsv, or every EVERY-th, in a copy of the sources, builds the test that
# it names, and wants it to fail; without WHOLE those alone that the tests of the state machines find, which take a second each.
set -euo pipefail
cd "$(dirname "$0")/../.."
every=${1:-1} whole=${2:-}
work=$(mktemp -d)
trap 'rm -rf "$work"' EXIT
wrong() { echo "faults: $*"; exit 1; }
top=$PWD

# the state machines with their own tests, by the compiler alone
parts() {
    for part in datagram tunnel transport; do echo "#[path = \"$1/$part.rs\"] pub mod $part;"; done > "$work/parts.rs"
    rustc --edition 2021 -C overflow-checks=on --test -o "$work/parts" "$work/parts.rs" 2> "$work/complaints" || return 2
    timeout 60 "$work/parts" --quiet || return 1
}

# the crate, in a copy of what it is built of
crate() { # TEST
    local kind=(--test "$1")
    [ "$1" != lib ] || kind=(--lib)
    (cd "$work/copy" && CARGO_TARGET_DIR=$work/target cargo test --release --quiet -p tool "${kind[@]}" --no-run) 2> "$work/complaints" || return 2
    (cd "$work/copy" && CARGO_TARGET_DIR=$work/target timeout 300 cargo test --release --quiet -p tool "${kind[@]}") || return 1
}

try() { # TEST FOLDER
    if [ "$1" = parts ]; then parts "$2"; else crate "$1"; fi
}

[ -z "$whole" ] || {
    mkdir "$work/copy"
    cp -r Cargo.toml Cargo.lock .cargo tools tests include examples hosts "$work/copy"
    ln -s "$top/build" "$work/copy/build"
    for name in lib survey hostile; do crate "$name" > "$work/said" 2>&1 || wrong "without a fault $name fails: $(tail -n 3 "$work/said")"; done
}
parts "$top/tools/tool/src" > "$work/said" 2>&1 || wrong "without a fault the parts fail: $(tail -n 3 "$work/said")"
found=0 line=0
while IFS=$'\t' read -r name file edit; do
    [ "$name" = parts ] || [ -n "$whole" ] || continue
    line=$((line + 1))
    [ $((line % every)) = 0 ] || continue
    if [ "$name" = parts ]; then
        rm -rf "$work/src" && cp -r tools/tool/src "$work/src"
        from=$work/src
    else
        from=$work/copy/tools/tool/src
        cp tools/tool/src/*.rs "$from"
    fi
    sed -i -e "$edit" "$from/$file"
    ! cmp -s "tools/tool/src/$file" "$from/$file" || wrong "fault $line changes nothing in $file: $edit"
    status=0
    try "$name" "$from" > "$work/said" 2>&1 || status=$?
    [ "$status" != 2 ] || wrong "fault $line does not compile: $(grep -m 3 '^error' "$work/complaints")"
    [ "$status" != 0 ] || wrong "fault $line is not found by $name: $edit"
    found=$((found + 1))
done < <(grep -v '^#' tests/tool/faults.tsv)
echo "faults: $found planted, each found"
