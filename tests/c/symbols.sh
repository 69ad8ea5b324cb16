#!/usr/bin/env bash
# tests/c/symbols.sh HEADER.. ARCHIVE: the archive defines exactly the functions that its headers declare, inline ones apart,
# and needs from outside at most memcpy, memset, memmove and memcmp; on x86-64, where a header says which, those alone. An archive
# for another processor also has what is below the shim (kelindap_module_), and for a controller Arm's names for memcpy and the
# like; the compiler's own library has those for which an Arm may have no instruction, a product of 64 bits and quotients.
set -euo pipefail
export LC_ALL=C
archive=${*: -1} headers=("${@:1:$#-1}")
work=$(mktemp -d)
trap 'rm -rf "$work"' EXIT

grep -hv '^static inline' "${headers[@]}" | grep -o 'kelindap_[a-z_]*(' | tr -d '(' | sort > "$work/declared"
nm -g --defined-only "$archive" > "$work/nm-defined"
nm -u "$archive" > "$work/nm-wanted"
awk 'NF == 3 { print $3 }' "$work/nm-defined" | sort > "$work/all"
grep -v '^kelindap_module_\|^__aeabi_mem' "$work/all" > "$work/defined"
awk 'NF == 2 { print $2 }' "$work/nm-wanted" | sort -u | comm -23 - "$work/all" > "$work/wanted"
printf '%s\n' __aeabi_idiv __aeabi_lmul __aeabi_uidiv memcmp memcpy memmove memset > "$work/allowed"
readelf -h "$archive" > "$work/heads"
if said=$(grep -oh 'On x86-64 it needs [a-z ]* from outside' "${headers[@]}") && grep -q 'Machine:.*X86-64' "$work/heads"; then
    { grep -o '\bmem[a-z]*' <<< "$said" || true; } | sort > "$work/allowed"
fi

bad=0
complain() { # MESSAGE, names on standard input
    local name
    while read -r name; do
        echo "symbols: $archive $1: $name"
        bad=1
    done
}
complain "lacks a function of ${headers[*]}" < <(comm -23 "$work/declared" "$work/defined")
complain "defines what ${headers[*]} does not declare" < <(comm -13 "$work/declared" "$work/defined")
complain "needs from outside" < <(comm -23 "$work/wanted" "$work/allowed")
[ -s "$work/declared" ] || { echo "symbols: ${headers[*]} declares nothing"; bad=1; }
[ "$bad" = 0 ]
echo "symbols: ${archive#build/} defines the $(wc -l < "$work/declared") functions of ${headers[*]##*/}, needs: $(paste -sd ' ' "$work/wanted")"
