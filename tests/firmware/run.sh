#!/usr/bin/env bash
# tests/firmware/run.sh COMPARE BRIDGE: the device on models of the controllers' own boards, against the plain Rust model and
# against this machine's own processor, for which BRIDGE is. On each board: the unit's scripts and the vectors with the marked
# cases, EVENTS events of COMPARE, whose replies have the hash that they have here, and how deep each call goes into the
# stack; the host of examples/flash.c there with a flash that is memory, its power cut (tests/cuts); on one board of each family the
# planted faults too. A board whose emulator is missing is named and passed over.
set -euo pipefail
compare=(timeout 1800 "$(realpath "$1")") here=$(realpath "$2")
cd "$(dirname "$0")/../.."
events=${EVENTS:-100000} seed=${SEED:-$((10#$(date +%N)))}
work=$(mktemp -d)
trap 'rm -rf "$work"' EXIT
fail() { echo "firmware: $1"; exit 1; }
missing=() packages=()
own=$(mk/bin/processor)

# the scripts without the PDU layer's; the vectors as a script
mkdir "$work/made"
tests/unit/made.sh "$work/made"
scripts=("$work/made/device-vectors" "$work/made/pump-vectors" "$work/made/ranges-vectors")
for name in marked events lookups old ranges sheets story rules tools versions listed traces links; do
    [ ! -e "tests/unit/$name.in" ] || scripts+=("tests/unit/$name")
done

# PROGRAM EVENTS: plays so many events, says so, and leaves the hash of the replies in $work/hash
play() {
    "${compare[@]}" --device "$1" "$2" "$seed" > "$work/out" 2> "$work/err" || { cat "$work/out" "$work/err"; fail "$1 differs"; }
    grep -o 'hash of all replies .*' "$work/out" > "$work/hash"
}

# PROCESSOR PROGRAM: the stack that was touched is no more than the compiler and the listings say
stack_holds() {
    local processor=$1 painted name
    mk/bin/stack "$processor" "build/firmware/$processor/$2-memory.s" > "$work/said"
    painted=$(grep '^painted ' "$work/err") || fail "$processor told no stack"
    for pair in ${painted#painted }; do
        name=${pair%=*}
        said=$(grep -o "\<$name=[0-9]*" "$work/said") || fail "$processor: no stack of $name"
        [ "${pair#*=}" -le "${said#*=}" ] || fail "$processor: $name took ${pair#*=} bytes of stack, more than ${said#*=}"
    done
    deepest=${painted##*request=}
    deepest=${deepest%% *}
}

# a stack that runs out ends in a fault
wall_stands() {
    local status=0
    printf '!' | timeout 300 "$1" > "$work/out" 2> "$work/err" || status=$?
    [ "$status" = 3 ] && grep -q faulted "$work/err" || fail "$1: a stack that is too deep is not seen"
}

# PROCESSOR PROGRAM: makes the program and plays the scripts on it; lines says how many
play_scripts() {
    mk/bin/firmware "$1" "$2" tests/compare/bridge.c tests/firmware/board.c tests/firmware/memory.c
    "${compare[@]}" "build/firmware/$1/$2" --scripts "${scripts[@]}" > "$work/out" 2> "$work/err" ||
        { cat "$work/out" "$work/err"; fail "$1: a script"; }
    lines=$(grep -o '[0-9]* lines' "$work/out")
}

# PROCESSOR EVENTS: power cuts on the host for flash; what the calls on slots touch of the stack holds there too
play_cuts() {
    local life=build/firmware/$1/life
    mk/bin/firmware "$1" life tests/cuts/life.c tests/firmware/board.c tests/firmware/memory.c
    "${compare[@]}" "$life" --cuts "$2" "$seed" > "$work/out" 2> "$work/err" || { cat "$work/out" "$work/err"; fail "$1: a power cut"; }
    stack_holds "$1" life
    echo "firmware: $1: $(< "$work/out")"
}

test_on() { # PROCESSOR EVENTS FAULTS
    local processor=$1 events=$2 faults=$3 bridge=build/firmware/$1/bridge hash
    play_scripts "$processor" bridge
    wall_stands "$bridge"
    play "$here" "$events"
    hash=$(< "$work/hash")
    play "$bridge" "$events"
    [ "$(< "$work/hash")" = "$hash" ] || fail "$processor: other replies than on $own, seed $seed"
    stack_holds "$processor" bridge
    echo "firmware: $processor: $lines of scripts, $events events, seed $seed, 0 different, as on $own;" \
        "a request took $deepest bytes of stack"
    play_cuts "$processor" $((events / 10))
    [ "$faults" = no ] || "${compare[@]}" --device "$bridge" --faults "$seed" > "$work/out" 2> "$work/err" ||
        { cat "$work/out"; fail "$processor: a planted fault is not found"; }
    [ "$faults" = no ] || echo "firmware: $processor: $(grep -o '[0-9]* of [0-9]* faults found' "$work/out")"
}

# EMULATOR PACKAGE PROCESSORS..: is the emulator there?
has() {
    command -v "$1" > /dev/null && return
    missing+=("${@:3}") packages+=("$2")
    return 1
}

if has qemu-system-arm qemu-system-arm cortex-m0 cortex-m3 cortex-m4; then
    test_on cortex-m3 "$events" faults
    test_on cortex-m0 $((events / 5)) no
    play_scripts cortex-m0 small
    echo "firmware: cortex-m0, on the board of a Cortex-M0 with 16 KB of memory: $lines of scripts, 0 different"
    test_on cortex-m4 $((events / 5)) no
fi
if has qemu-system-riscv32 qemu-system-misc rv32imac; then
    test_on rv32imac "$events" faults
fi
if [ ${#missing[@]} -gt 0 ]; then
    echo "firmware: not tested: ${missing[*]} (no emulator; on Debian: apt-get install ${packages[*]})"
fi
