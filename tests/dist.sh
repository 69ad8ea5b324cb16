#!/usr/bin/env bash
# tests/dist.sh PROCESSOR..: what make dist leaves for these: the same bytes twice; every archive checks itself, and finds a file that was
# changed, added or taken away; a host is compiled with the first by pkg-config; the verdict names every crate and the module; the
# libraries are those that are made here.
set -euo pipefail
cd "$(dirname "$0")/.."
git rev-parse HEAD > /dev/null 2>&1 || { echo "dist: left out: this is no clone"; exit 0; }
work=$(mktemp -d)
trap 'rm -rf "$work"' EXIT
fail() { echo "dist: $*"; exit 1; }
export CHANGED=yes
mk/bin/dist "$@" > /dev/null
cp build/dist/SUMS "$work/first"
mk/bin/dist "$@" > /dev/null
cmp -s build/dist/SUMS "$work/first" || { diff "$work/first" build/dist/SUMS; fail "two builds, other bytes"; }
(cd build/dist && sha256sum --quiet -c SUMS) || fail "SUMS are of other archives"
[ "$(wc -l < build/dist/SUMS)" = $(($# + 1)) ] || fail "there are not $(($# + 1)) archives"

version=$(sed -n 's/.*KELINDAP_VERSION_TEXT "\(.*\)"/\1/p' include/kelindap_common.h)
tar -C "$work" -xf "build/dist/kelindap-$version.tar.gz"
[ -s "$work/kelindap-$version/crates.txt" ] && [ -x "$work/kelindap-$version/.ci/run" ] || fail "the source is not whole"
for processor; do
    at=$work/kelindap-$version-$processor
    tar -C "$work" -xf "build/dist/${at##*/}.tar.gz"
    "$at/check" > "$work/said" || fail "$processor does not check"
    for crate in $(mk/bin/rests host_c tool_c plain_host_c); do
        case $crate in *_c) line='logic=proved functions=[0-9]* .*' ;; *) line=proved ;; esac
        grep -q "^  $crate: $line\$" "$at/VERDICT" || fail "no verdict of $crate"
        grep -q "^  [0-9a-f]\{64\}  $crate\$" "$at/VERDICT" || fail "no sum of $crate"
    done
    for name in include/kelindap.h doc/kelindap.html doc/docs/PROMISES.md doc/examples/host.c doc/sheets/sample.sheet lib/libkelindap_device.a; do
        [ -s "$at/$name" ] || fail "$processor has no $name"
    done
    "$at/check" "$PWD" | grep -q "are those that are proved and made of" || fail "the libraries for $processor are others"
done
at=$work/kelindap-$version-$1
if command -v pkg-config > /dev/null; then
    read -ra words <<< "$(PKG_CONFIG_PATH=$at/lib/pkgconfig pkg-config --cflags --libs kelindap)"
    gcc -o "$work/host" -std=c11 tests/c/installed.c "${words[@]}"
    [ "$("$work/host" | cut -d ' ' -f 1)" = "$version" ] || fail "a host that is linked with it says $("$work/host")"
fi
# one bit of a library, a file more, a file less
cp -a "$at" "$work/changed"
printf '\1' | dd of="$work/changed/lib/libkelindap_device.a" bs=1 seek=5000 conv=notrunc status=none
! "$work/changed/check" > /dev/null 2>&1 || fail "a library that was changed checks"
rm -rf "$work/changed" && cp -a "$at" "$work/changed" && echo more > "$work/changed/lib/more.a"
! "$work/changed/check" > /dev/null 2>&1 || fail "an archive with a file more checks"
rm -rf "$work/changed" && cp -a "$at" "$work/changed" && rm "$work/changed/include/kelindap.h"
! "$work/changed/check" > /dev/null 2>&1 || fail "an archive with a file less checks"
echo "dist: $(wc -l < build/dist/SUMS) archives, the same bytes twice, each checks itself and finds what was changed"
