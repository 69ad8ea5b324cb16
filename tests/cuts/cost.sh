#!/usr/bin/env bash
# tests/cuts/cost.sh [DEVICE_A]: what the calls on slots cost, as the table of docs/SPEED.md has it: instructions of judging a slot
# whole and in parts of 64 bytes, and of all pieces of a save, on x86-64, of which DEVICE_A is the device, by callgrind, and on the
# boards by their emulators; ? is what can't be counted here. tests/cuts/cost.sh bits: on the boards, the bytes of code and constants
# and the instructions a byte of a sheet of 16,384, as it is, with a table of 1 KB for the check sum, and with a loop over the bits.
set -euo pipefail
cd "$(dirname "$0")/../.."
processors=(cortex-m0 cortex-m3 cortex-m4 rv32imac)
work=$(mktemp -d)
trap 'rm -rf "$work"' EXIT
emulated() { case $1 in cortex-*) command -v qemu-system-arm ;; *) command -v qemu-system-riscv32 ;; esac > /dev/null; }
# PROCESSOR: the rows of its board
on_board() {
    mk/bin/firmware "$1" cost tests/cuts/cost.c tests/firmware/board.c tests/firmware/memory.c
    COUNT=1 "${FIRMWARE_FOLDER:-build/firmware}/$1/cost" 2> /dev/null | cat
}

if [ "${1-}" = bits ]; then
    echo "processor: bytes and instructions a byte with the table, and with the loop over the bits"
    for p in "${processors[@]}"; do
        emulated "$p" || continue
        for way in table bits; do
            FIRMWARE_FOLDER=$work/$way MODULE_WORDS=$([ $way = table ] || echo "-mllvm -disable-loop-idiom-hashrecognize") mk/bin/firmware "$p"
            size "$work/$way/$p/module.o" "$work/$way/$p/shim.o" | awk 'NR > 1 { n += $1 + $2 } END { printf "%d ", n }'
            FIRMWARE_FOLDER=$work/$way on_board "$p" | awk '$1 == "judged" { n[$2] = $3 } END { printf "%.1f ", (n[16384] - n[1024]) / 20 / (16384 - 1024) }'
        done | sed "s/^/$p: /"
        echo
    done
    exit
fi

{
    if [ "$(mk/bin/processor)" = x86_64 ] && [ -e "${1-}" ] && command -v valgrind > /dev/null; then
        gcc -std=c11 -O2 -D_POSIX_C_SOURCE=200809L -Iinclude -o "$work/cost" tests/cuts/cost.c "$1"
        "$work/cost" > "$work/order"
        valgrind -q --tool=callgrind --dump-before=cost_mark --callgrind-out-file="$work/out" "$work/cost" > /dev/null 2>&1
        k=0
        # the second count of each two is of what is between the marks
        while read -r what length _; do
            k=$((k + 2))
            echo "x86-64 $what $length $(sed -n 's/^totals: //p' "$work/out.$k")"
        done < "$work/order"
    fi
    for p in "${processors[@]}"; do
        if emulated "$p"; then on_board "$p" | sed "s/^/$p /"; fi
    done
} > "$work/rows"
awk -v list="x86-64 ${processors[*]}" '
    function comma(n) { return n < 1000 ? n : n < 1000000 ? int(n / 1000) sprintf(",%03d", n % 1000) : int(n / 1000000) sprintf(",%03d,%03d", int(n / 1000) % 1000, n % 1000) }
    { taken[$1, $2, $3] = $4 }
    END {
        n = split(list, processor, " ")
        split("judged parts saved", what, " ")
        split("69 1024 16384", length_, " ")
        title["judged"] = "`kelindap_slot`"
        title["parts"] = "the same in parts of 64 bytes"
        title["saved"] = "all pieces of a save"
        head = "| Instructions, by the length of the sheet |"
        under = "|---|"
        for (i = 1; i <= n; i++) { head = head " " processor[i] " |"; under = under "---|" }
        print head
        print under
        for (w = 1; w <= 3; w++)
            for (l = 1; l <= 3; l++) {
                line = "| " title[what[w]] ", " comma(length_[l]) " bytes |"
                for (i = 1; i <= n; i++) {
                    got = taken[processor[i], what[w], length_[l]]
                    line = line " " (got == "" ? "?" : comma(int((got - taken[processor[i], "nothing", length_[l]]) / 20 + 0.5))) " |"
                }
                print line
            }
    }' "$work/rows"
