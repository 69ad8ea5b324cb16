#!/usr/bin/env bash
# tests/c/exchanged.sh: with two arguments exchanged, or one of another kind, the calls of kelindap_unit.h do not compile: in C
# with the warnings that README's host is compiled with, in C++, where g++ is installed, without any. Without a fault they do.
set -euo pipefail
cd "$(dirname "$0")/../.."
cases=$(grep -c 'WRONG ==' tests/c/exchanged.c)
compilers=("gcc -std=c11 -Wall -Wextra -Wpedantic -Werror")
languages=C
if command -v g++ > /dev/null; then
    compilers+=("g++ -std=c++11 -x c++")
    languages+=" and C++"
fi
bad=0
for compiler in "${compilers[@]}"; do
    read -ra words <<< "$compiler -Iinclude -fsyntax-only"
    "${words[@]}" tests/c/exchanged.c || { echo "exchanged: without a fault it does not compile: $compiler"; bad=1; }
    for ((n = 1; n <= cases; n++)); do
        if "${words[@]}" -DWRONG="$n" tests/c/exchanged.c 2> /dev/null; then
            echo "exchanged: case $n compiles: $compiler"
            bad=1
        fi
    done
done
[ "$bad" = 0 ]
echo "exchanged: $cases calls with a wrong argument do not compile in $languages"
