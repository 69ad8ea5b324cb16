#!/usr/bin/env bash
# tests/bench/emulated.sh BENCH PROCESSOR ARCHIVE: the benchmark's rows of the proved side alone, counted for Linux on another processor in
# qemu's emulator, instruction by instruction: sheet, request and instructions. What callgrind counts on such a machine itself is
# less by a few instructions that are the same for all rows of a kind, since the call that does nothing is another there.
set -euo pipefail
bench=$1 processor=$2 archive=$3
read -r _ _ compiler emulator _ < <(grep "^$processor " mk/processors)
work=$(mktemp -d)
trap 'rm -rf "$work"' EXIT
"$bench" --cases > "$work/cases"
"$compiler-gcc" -std=c11 -O2 -Wall -Wextra -static -Iinclude -o "$work/program" tests/bench/emulated.c "$archive"
mkfifo "$work/log"
from=$(nm "$work/program" | awk '$3 == "emulated_from" { print $1 }') to=$(nm "$work/program" | awk '$3 == "emulated_to" { print $1 }')
"$emulator" -singlestep -d exec,nochain -D "$work/log" "$work/program" < "$work/cases" &
# a line of the log is an instruction: its address stands after the first /
awk -F / -v from="$from" -v to="$to" -v cases="$work/cases" '
    $2 == from { on = 1; n = 0 }
    $2 == to && on { on = 0; if (++round % 3 == 2) counted = n; else if (round % 3 == 0) count[round / 3] = counted - n }
    on { n++ }
    END {
        while ((getline line < cases) > 0) {
            split(line, word, " ")
            if (word[1] == "c") check = count[k + 1]
            gsub("-", " ", word[8])
            printf "%-6s %-24s %8d\n", word[7], word[8], count[++k] - (word[6] == 1 ? check : 0)
        }
    }' "$work/log"
wait $!
