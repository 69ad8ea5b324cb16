#!/usr/bin/env bash
# tests/bench/growth.sh PROGRAM: what each call of tests/bench/growth.c took, in instructions, a line each.
set -euo pipefail
command -v valgrind > /dev/null || { echo "valgrind is missing: it counts the instructions" >&2; exit 1; }
program=$(realpath "$1")
cd "$(mktemp -d)"
trap 'rm -rf "$PWD"' EXIT
# the C library's memset and memcpy take long runs by one instruction that callgrind counts once a byte: not here
export GLIBC_TUNABLES=glibc.cpu.x86_rep_stosb_threshold=1000000:glibc.cpu.x86_rep_movsb_threshold=1000000
valgrind --tool=callgrind --dump-before=growth_mark --callgrind-out-file=out "$program" > said 2> err || { cat err >&2; exit 1; }
# a count is written before each mark: of two marks the second's is the call's own, with the way from mark to mark
k=0
while read -r line; do
    k=$((k + 2))
    printf '%10s  %s\n' "$(sed -n 's/^totals: //p' "out.$k")" "$line"
done < said
