#!/usr/bin/env bash
# tests/tool/run.sh BUILD: kelindap-tool by its parts and as a whole, on the loopback alone. LONG=1 has ten million datagrams for the state
# machines and every planted fault; without it a share of each. The programs are built by mk/tool.mk.
set -euo pipefail
cd "$(dirname "$0")/../.."
build=$1
share() { [ -n "${LONG:-}" ] && echo "$2" || echo "$1"; }
export PYTHONDONTWRITEBYTECODE=1 ASAN_OPTIONS=detect_leaks=0
work=$(mktemp -d)
trap 'kill $(jobs -p) 2> /dev/null || true; rm -rf "$work"' EXIT

cargo test --release --quiet -p tool --no-run
# what mostly waits runs beside the rest
waiting=()
beside() { # NAME COMMAND..
    "${@:2}" > "$work/$1" 2>&1 &
    waiting+=("$!:$1")
}
if command -v python3 > /dev/null; then
    export HEIGHT_PROGRAM=$PWD/$build/height DEVICE_PROGRAM=$PWD/$build/kelindap-device
    beside units python3 tests/tool/session.py units
    beside around python3 tests/tool/session.py around
    beside meet python3 tests/tool/meet.py
else
    echo "tool: left out: sessions and knxd: there is no python3 here"
fi
beside survey cargo test --release --quiet -p tool --test survey
beside hostile cargo test --release --quiet -p tool --test hostile -- --test-threads 4
cargo test --release --quiet -p tool --lib --test machines
# shellcheck disable=SC2046
tests/tool/faults.sh $(share 6 1) $(share "" whole)
# the end of make run
scripts/bus.sh "$build/kelindap-device" build/kelindap-tool > "$work/run"
grep -q '^   refused: level 3, the description says that writing needs level 1$' "$work/run" && grep -q '^   read back: 1250$' "$work/run" &&
    grep -q 'at level 1 writes property 1/51 element 1: 1000 -> 1250$' "$work/run" || { cat "$work/run"; echo "tool: make run shows something else"; exit 1; }
for w in "${waiting[@]}"; do
    status=0
    wait "${w%%:*}" || status=$?
    [ "$status" = 0 ] || { echo "tool: ${w#*:} fails"; cat "$work/${w#*:}"; exit 1; }
    grep -v -e '^$' -e '^running' -e '^\.*$' "$work/${w#*:}" || true
done
