#!/usr/bin/env bash
# scripts/bus.sh DEVICE TOOL: the end of `make run`: the device on a real bus, on a free port of the loopback, and the tool on it, refused
# without the key and heard with it; and what the device's log says. Some seconds at most.
set -euo pipefail
device=$(realpath "$1") tool=$(realpath "$2")
top=$(realpath "$(dirname "$0")/..")
work=$(mktemp -d)
pid=
trap '[ -z "$pid" ] || kill "$pid" 2> /dev/null || true; rm -rf "$work"' EXIT
cd "$work"
printf '%b' "$(grep -o '0x..' "$top/hosts/sample_sheet.inc" | sed 's/0x/\\x/' | paste -sd '')" > tank.sheet
(umask 077 && echo 22222222 > key)
"$device" tank.sheet --port 0 > ready 2> log &
pid=$!
for ((waited = 0; waited < 500; waited++)); do [ ! -s ready ] || break; sleep 0.01; done
[ -s ready ] || { cat log; exit 1; }

echo "On a real bus: kelindap-device serves the same sheet by KNXnet/IP, and kelindap-tool speaks to it."
for words in "read 1.1.5 1/51" "write 1.1.5 1/51 1250" "write 1.1.5 1/51 1250 --key-file key"; do
    echo "   \$ kelindap-tool $words"
    # shellcheck disable=SC2086
    { "$tool" $words --via "127.0.0.1:$(cut -d ' ' -f 2 ready)" 2>&1 || [ $? = 1 ]; } | sed 's/^/   /'
done
echo "   the device's log:"
sed -n 's/^[^ ]* \(.* \(is refused\|offers a key\|writes\).*\)/   \1/p' log
