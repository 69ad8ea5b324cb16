#!/usr/bin/env bash
# tests/cuts/run.sh BUILD COMPARE: power cuts on the host of examples/flash.c, on every kind of medium: CUT_SAVES saves on each, each cut
# after every byte and with every pattern of torn bytes; CUT_EVENTS events with cuts against the plain model; and that each fault of
# faults.tsv is found. With FEW in the environment fewer media, and no faults. LONG=1 is the long form: ten thousand saves and a
# million events in all. CC_FOR is the compiler, SANITIZE its words for tests that watch themselves.
set -euo pipefail
build=$1 compare=$2
cd "$(dirname "$0")/../.."
seed=${SEED:-$((10#$(date +%N)))}
saves=${CUT_SAVES:-12} events=${CUT_EVENTS:-15000}
[ -z "${LONG:-}" ] || { saves=1667 events=334000; }
mkdir -p "$build/cuts"
work=$(mktemp -d)
trap 'rm -rf "$work"' EXIT
wrong() { echo "cuts: $*"; exit 1; }
read -ra cc <<< "${CC_FOR:-gcc}"
read -ra watch <<< "${SANITIZE:-}"
export ASAN_OPTIONS=detect_leaks=0
strict=(-std=c11 -O2 -Wall -Wextra -Wpedantic -Werror -Iinclude -Itests/cuts)

# TEST MEDIUM UNIT FOLDER OUT WORDS..: a test on a medium, with the host in a folder
make_test() {
    local once=0
    [ "$2" != 2 ] || once=1
    "${cc[@]}" -o "$5" "${strict[@]}" -I"$4" "${@:6}" -DMEDIUM="$2" -DFLASH_UNIT="$3" -DFLASH_ONCE="$once" "tests/cuts/$1.c" \
        "$build/libkelindap_device.a"
}

gcc "${strict[@]}" -Iexamples -c examples/flash.c -o /dev/null
kinds=("0 1" "0 16" "1 4" "1 8" "2 8" "2 32") media=(0 1 2)
[ -z "${FEW:-}" ] || kinds=("0 16" "1 8" "2 32") media=(1)
for kind in "${kinds[@]}"; do
    read -r medium unit <<< "$kind"
    make_test every "$medium" "$unit" examples "$build/cuts/every-$medium-$unit" -g "${watch[@]}"
    "$build/cuts/every-$medium-$unit" "$saves" "$seed"
done
for medium in "${media[@]}"; do
    make_test life "$medium" 8 examples "$build/cuts/life-$medium" -g "${watch[@]}"
    "$compare" "$build/cuts/life-$medium" --cuts "$events" "$seed"
done
[ -z "${FEW:-}" ] || exit 0

# the faults, each in a copy of the host
found=0 line=0
mkdir "$work/host"
while IFS=$'\t' read -r name medium what edit; do
    line=$((line + 1))
    cp examples/flash.c examples/flash.h "$work/host"
    sed -i -e "$edit" "$work/host/flash.c"
    ! cmp -s examples/flash.c "$work/host/flash.c" || wrong "fault $line changes nothing: $what"
    make_test "$name" "$medium" 8 "$work/host" "$work/test" -Wno-error -Wno-pedantic -w 2> "$work/said" ||
        wrong "fault $line does not compile: $what: $(head -n 3 "$work/said")"
    status=0
    case $name in
    every) timeout 120 "$work/test" 40 "$seed" > "$work/said" 2>&1 || status=$? ;;
    life) timeout 120 "$compare" "$work/test" --cuts 60000 "$seed" > "$work/said" 2>&1 || status=$? ;;
    *) wrong "there is no test $name" ;;
    esac
    [ "$status" != 0 ] || wrong "fault $line is not found by $name: $what"
    [ "$status" = 1 ] || wrong "fault $line: $name ended by $status: $what: $(tail -n 2 "$work/said")"
    [ -z "${SHOW:-}" ] || echo "cuts: $what: $(tail -n 1 "$work/said")"
    found=$((found + 1))
done < <(grep -v '^#' tests/cuts/faults.tsv)
echo "cuts: $found faults planted in the host, each found"
