#!/usr/bin/env bash
# tests/c/freestanding.sh HOST_A TOOL_A: links the archives into a program that has neither an operating system's start
# nor a C library, runs it, and tells how many bytes of code and data they are. CC_FOR makes programs for the archives.
set -euo pipefail
host=$(realpath "$1") tool=$(realpath "$2")
cd "$(dirname "$0")/../.."
work=$(mktemp -d)
trap 'rm -rf "$work"' EXIT

# the quotient that 32-bit Arm lacks is in the compiler's own library
libs=()
case $CC_FOR in *armhf) libs=(-lgcc) ;; esac
$CC_FOR -o "$work/bare" -std=c11 -O2 -Wall -Wextra -Wpedantic -Werror -Iinclude -ffreestanding \
    -fno-stack-protector -nostdlib -static tests/c/bare.c "$host" "$tool" "${libs[@]}"
status=0
"$work/bare" || status=$?
[ "$status" = 0 ] || { echo "freestanding: the program ended with status $status"; exit 1; }

bytes() { size "$1" | awk 'NR > 1 { n += $1 + $2 } END { print n + 0 }'; } # text and data of all members
echo "freestanding: runs; text and data: ${host#"$PWD"/build/} $(bytes "$host") bytes, ${tool##*/} $(bytes "$tool") bytes"
