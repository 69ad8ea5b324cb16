#!/usr/bin/env bash
# tests/device/faults.sh [EVERY]: plants each fault of faults.tsv, or every EVERY-th, in a copy of hosts/device, builds the test that it
# names, and wants it to fail; without a fault each test passes.
set -euo pipefail
cd "$(dirname "$0")/../.."
every=${1:-1}
work=$(mktemp -d)
trap 'rm -rf "$work"' EXIT
wrong() { echo "faults: $*"; exit 1; }

parts() { # the files that a test is built of
    case $1 in
    transport) echo transport ;;
    tunnel) echo tunnel datagram meaning ;;
    device) echo device meaning transport ;;
    fuzz) echo tunnel datagram meaning device transport ;;
    *) wrong "there is no test $1" ;;
    esac
}

# builds the program with the parts in a folder, and runs a test in Python with it
try_program() {
    local name=$1 from=$2 words=
    gcc -std=c11 -O1 -Iinclude -Ibuild -I"$from" -o "$work/device-program" "$from"/*.c build/libkelindap_device.a build/libkelindap_pdu.a \
        2> "$work/complaints" || return 2
    [ "$name" != kill ] || words=30
    # shellcheck disable=SC2086
    DEVICE_PROGRAM=$work/device-program timeout 120 python3 "tests/device/$name.py" $words || return 1
}

# builds the test of a name with the parts in a folder, and runs it
try() {
    local name=$1 from=$2 sources=() source=tests/device/$1_test.c
    [ ! -e "tests/device/$name.py" ] || { try_program "$name" "$from"; return; }
    [ "$name" != fuzz ] || source=tests/device/fuzz_parts.c
    for part in $(parts "$name"); do sources+=("$from/$part.c"); done
    gcc -std=c11 -O1 -Iinclude -Ihosts -I"$from" -fsanitize=address,undefined -fno-sanitize-recover=all -o "$work/test" "$source" \
        "${sources[@]}" build/libkelindap_device.a build/libkelindap_pdu.a 2> "$work/complaints" || return 2
    if [ "$name" = fuzz ]; then
        timeout 60 "$work/test" "${FUZZ_FAULTS:-60000}" 1 && timeout 60 "$work/test" "${FUZZ_FAULTS:-60000}" 2 || return 1
    else
        timeout 60 "$work/test" || return 1
    fi
}
export ASAN_OPTIONS=detect_leaks=0 PYTHONDONTWRITEBYTECODE=1
python3=$(command -v python3) || echo "faults: left out: those that a test in Python finds: there is no python3 here"

# where all are planted; run.sh has just had them otherwise
for name in $([ "$every" != 1 ] || echo transport tunnel device fuzz endpoints edges session kill); do try "$name" hosts/device > "$work/said" 2>&1 || wrong "without a fault $name fails: $(tail -n 3 "$work/said")"; done
found=0 line=0
while IFS=$'\t' read -r name file edit; do
    line=$((line + 1))
    [ $((line % every)) = 0 ] || continue
    [ -n "$python3" ] || [ ! -e "tests/device/$name.py" ] || continue
    rm -rf "$work/device"
    cp -r hosts/device "$work/device"
    sed -i -e "$edit" "$work/device/$file"
    ! cmp -s "hosts/device/$file" "$work/device/$file" || wrong "fault $line changes nothing in $file: $edit"
    status=0
    try "$name" "$work/device" > "$work/said" 2>&1 || status=$?
    [ "$status" != 2 ] || wrong "fault $line does not compile: $(head -n 3 "$work/complaints")"
    [ "$status" != 0 ] || wrong "fault $line is not found by $name: $edit"
    found=$((found + 1))
done < <(grep -v '^#' tests/device/faults.tsv)
echo "faults: $found planted, each found"
