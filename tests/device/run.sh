#!/usr/bin/env bash
# tests/device/run.sh: kelindap-device by its parts and as a whole, on the loopback alone. LONG=1 has a million datagrams for the parts,
# 200 kills, every planted fault, and more datagrams over UDP; without it a share of each. Its two programs and the tests in C are
# built by mk/device.mk.
set -euo pipefail
cd "$(dirname "$0")/../.."
build=$1
share() { [ -n "${LONG:-}" ] && echo "$2" || echo "$1"; }
export DEVICE_PROGRAM=$PWD/$build/kelindap-device DEVICE_WATCHED=$PWD/$build/kelindap-device_watched ASAN_OPTIONS=detect_leaks=0 PYTHONDONTWRITEBYTECODE=1
work=$(mktemp -d)
trap 'kill $(jobs -p) 2> /dev/null || true; rm -rf "$work"' EXIT

for t in transport_test tunnel_test device_test; do "$build/$t"; done
python=$(command -v python3) || { echo "device: left out: sessions, knxd and kills: there is no python3 here"; python=; }
# what mostly waits runs beside the rest
waiting=()
if [ -n "$python" ]; then
    for t in "session.py" "wire.py $(share 10000 100000) $(share 1 2)"; do
        # shellcheck disable=SC2086
        python3 tests/device/$t > "$work/${t%% *}" 2>&1 &
        waiting+=("$!:${t%% *}")
    done
fi
for seed in 1 2; do nice "$build/fuzz_parts" "$(share 60000 500000)" "$seed"; done
tests/device/faults.sh "$(share 9 1)"
if [ -n "$python" ]; then
    python3 tests/device/endpoints.py
    python3 tests/device/edges.py
    python3 tests/device/meet.py
    python3 tests/device/kill.py "$(share 12 200)"
fi
for w in "${waiting[@]}"; do
    status=0
    wait "${w%%:*}" || status=$?
    cat "$work/${w#*:}"
    [ "$status" = 0 ] || exit 1
done
