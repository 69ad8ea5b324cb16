#!/usr/bin/env bash
# tests/install.sh: `make install` to a folder of its own, and a host that finds headers and libraries there alone, through
# pkg-config where that is installed, which names the processor, and by the words of docs/LINKING.md; all that the headers name, examples that
# compile, sample sheets in three forms; the Python package, found there alone; that of another processor, with no program; that what can't be built is refused; and that
# `make uninstall` leaves what it did not bring.
set -euo pipefail
cd "$(dirname "$0")/.."
work=$(mktemp -d)
trap 'rm -rf "$work"' EXIT
fail() { echo "install: $1"; exit 1; }
own=$(mk/bin/processor)
version=$(sed -n 's/.*KELINDAP_VERSION_TEXT "\(.*\)"/\1/p' include/kelindap_common.h)
install() { make --no-print-directory -s install "$@" > "$work/said" 2>&1; }
install PREFIX="$work/at" || { cat "$work/said"; fail "make install failed"; }

flags="-I$work/at/include -L$work/at/lib -lkelindap_device -lkelindap_pdu"
by="its own words"
if command -v pkg-config > /dev/null; then
    export PKG_CONFIG_PATH=$work/at/lib/pkgconfig
    [ "$(pkg-config --modversion kelindap)" = "$version" ] || fail "pkg-config tells another version"
    [ "$(pkg-config --variable=processor kelindap)" = "$own" ] || fail "pkg-config tells another processor"
    flags=$(pkg-config --cflags --libs kelindap)
    by="pkg-config"
fi
read -ra words <<< "$flags"
gcc -o "$work/host" -std=c11 tests/c/installed.c "${words[@]}"
[ "$("$work/host")" = "$version 1 1 no PDU that can be written, not 32 to 16,384 bytes" ] || fail "$("$work/host")"
# by LINKING's own words, and by the plain engine's package
if command -v pkg-config > /dev/null; then
    mkdir "$work/readme"
    cp tests/c/installed.c "$work/readme/host.c"
    grep '^    gcc .*pkg-config --cflags --libs kelindap)$' docs/LINKING.md > "$work/readme/line" || fail "LINKING.md shows no line to compile a host"
    (cd "$work/readme" && bash -euo pipefail ./line)
    [ "$("$work/readme/host")" = "$("$work/host")" ] || fail "LINKING's line makes another host"
    read -ra words <<< "$(pkg-config --cflags --libs kelindap-plain)"
    gcc -o "$work/plain" -DPLAIN -std=c11 tests/c/installed.c "${words[@]}"
    [ "$("$work/plain" | tail -n 1)" = "the sheet breaks a rule" ] || fail "the plain engine said $("$work/plain" | tail -n 1)"
fi

# what the headers name is there: documents, examples, other headers; and nothing is named that is of this folder alone
doc=$work/at/share/doc/kelindap
named=$(cat include/*.h | grep -oE '\b(docs|examples|sheets)/[A-Za-z_]+\.[a-z]+|\b[A-Z]+\.md\b' | sort -u)
[ "$(wc -w <<< "$named")" -ge 7 ] || fail "the headers name only $named"
for name in $named; do [ -s "$doc/$name" ] || fail "a header names $name, which is not installed"; done
for name in $(cat include/*.h | grep -oE '\bkelindap[a-z_]*\.h\b' | sort -u); do [ -s "$work/at/include/$name" ] || fail "a header names $name, which is not installed"; done
! grep -nE '\b(tests|crates|hosts|tools|mk|scripts|shims|build|include)/' include/*.h || fail "a header names what is never installed"
example() { gcc -o "$work/$1" -std=c11 -I"$work/at/include" "${@/#/$doc/examples/}" -L"$work/at/lib" -lkelindap_device -lkelindap_pdu || fail "examples/$1 does not compile"; }
example host.c files.c local.c transport.c
example height.c
gcc -std=c11 -Wall -Wextra -Werror -I"$work/at/include" -c "$doc/examples/flash.c" -o /dev/null || fail "examples/flash.c does not compile"
cmp build/kelindap.html "$doc/kelindap.html" || fail "another page"
for sheet in sample pump; do
    from=$doc/sheets/$sheet
    "$work/at/bin/kelindap-sheet" make "$from.txt" | cmp - "$from.sheet" || fail "the text of $sheet is of another sheet"
    { echo '#include <stdio.h>'; echo 'static const unsigned char sheet[] = {'; cat "$from.inc"; echo '};'; echo 'int main(void) { return fwrite(sheet, 1, sizeof sheet, stdout) != sizeof sheet; }'; } > "$work/array.c"
    gcc -std=c11 -Wall -Wextra -Wpedantic -Werror -o "$work/array" "$work/array.c"
    "$work/array" | cmp - "$from.sheet" || fail "the array of $sheet is of another sheet"
    [ "$(grep -o '0x..' "hosts/${sheet}_sheet.inc")" = "$(grep -o '0x..' "$from.inc")" ] || fail "$sheet is not that of hosts"
done

"$work/at/bin/kelindap-sheet" make /dev/null > "$work/said" 2>&1 || true
grep -q 'end is missing' "$work/said" || fail "no sheet program"
[ "$("$work/at/bin/kelindap-sheet" --version)" = "kelindap-sheet of kelindap $version" ] || fail "a sheet program of another version"
[ "$("$work/at/bin/kelindap-trace" --version)" = "kelindap-trace of kelindap $version" ] || fail "a trace program of another version"
[ "$("$work/at/bin/kelindap-unit" --version)" = "kelindap-unit of kelindap $version" ] || fail "a desk unit of another version"
[ "$("$work/at/bin/kelindap-tool" --version)" = "kelindap-tool of kelindap $version" ] || fail "a tool of another version"
[ "$("$work/at/bin/kelindap-sheet" chek 2>&1)" = 'kelindap-sheet: no command "chek", perhaps check; kelindap-sheet --help says more' ] ||
    fail "a message under another name"
[ "$(echo 'connect 0' | "$work/at/bin/kelindap-unit" | cut -c 1-11)" = "1 1 3 0 3 0" ] || fail "no desk unit"
for name in sheet trace unit device tool; do [ -s "$work/at/share/man/man1/kelindap-$name.1" ] || fail "no man page of kelindap-$name"; done
for name in sheet trace unit device tool; do
    cmp tools/kelindap.bash "$work/at/share/bash-completion/completions/kelindap-$name" || fail "no completions of kelindap-$name"
done

# the Python package, twice, since what was there before is taken away first
if command -v python3 > /dev/null; then
    modules=$(python3 hosts/python/making/place.py "$work/at")
    touch "$modules/kelindap/gone.py"
    install PREFIX="$work/at" || { cat "$work/said"; fail "make install failed the second time"; }
    grep -qxF "install: python3 finds the package with PYTHONPATH=$modules" "$work/said" || fail "nothing is said of where Python's package is"
    [ ! -e "$modules/kelindap/gone.py" ] || fail "a module of another version stays"
    [ "$(cd / && PYTHONDONTWRITEBYTECODE=1 PYTHONPATH=$modules python3 -c 'import kelindap; print(kelindap.__file__, kelindap.__version__)')" = "$modules/kelindap/__init__.py $version" ] ||
        fail "no Python package"
    PYTHONDONTWRITEBYTECODE=1 PYTHONPATH=$modules python3 tests/python/lost.py > "$work/said" || { cat "$work/said"; fail "the Python package fails"; }
    make --no-print-directory -s uninstall-python PREFIX="$work/at"
    [ -z "$(find "$work/at" -path '*python*' -name 'kelindap*')" ] || fail "the Python package is not taken away"
    install PREFIX="$work/at" || { cat "$work/said"; fail "make install failed the third time"; }
fi
install PREFIX="$work/without" PYTHON3= || { cat "$work/said"; fail "make install failed without python3"; }
grep -q 'without the Python package' "$work/said" || fail "nothing is said of a Python package that is not there"
[ -z "$(find "$work/without" -path '*python*')" ] || fail "a Python package is installed without python3"

# the device on a bus, and its unit for systemd: where that is installed it has no complaint, and finds the service well shut in
[ "$("$work/at/bin/kelindap-device" --version)" = "kelindap-device of kelindap $version" ] || fail "a device of another version"
unit=$work/at/lib/systemd/system/kelindap-device@.service
grep -q "^ExecStart=$work/at/bin/kelindap-device /var/lib/private/kelindap-%i/sheet" "$unit" || fail "the unit starts something else"
if command -v systemd-analyze > /dev/null; then
    grep -v '^Documentation=' "$unit" > "$work/kelindap-device@tank.service" # the page is not where man looks
    systemd-analyze verify "$work/kelindap-device@tank.service" > "$work/said" 2>&1 || { cat "$work/said"; fail "systemd complains of the unit"; }
    systemd-analyze security --offline=true --threshold=20 "$work/kelindap-device@tank.service" > "$work/said" 2>&1 ||
        { tail -n 1 "$work/said"; fail "the unit leaves more open than it should"; }
else
    echo "install: left out: the unit for systemd is not judged: there is no systemd-analyze here"
fi

# another processor than this machine's
other=$([ "$own" = aarch64 ] && echo armhf || echo aarch64)
install PREFIX="$work/other" PROCESSOR="$other" || { cat "$work/said"; fail "make install for $other failed"; }
grep -q "for $other the libraries and documents alone" "$work/said" || fail "nothing is said of programs for $other"
[ ! -e "$work/other/bin" ] && [ -z "$(find "$work/other" -name 'kelindap*' -path '*python*')" ] || fail "programs of this machine stand beside libraries for $other"
grep -qx "processor=$other" "$work/other/lib/pkgconfig/kelindap.pc" || fail "pkg-config's file does not name $other"
! cmp -s "$work/at/lib/libkelindap_device.a" "$work/other/lib/libkelindap_device.a" || fail "$other has the library of $own"

# one for which there is nothing
! install PREFIX="$work/none" PROCESSOR=m68k || fail "something was installed for m68k"
grep -q "there are no libraries for m68k; PROCESSOR may be: x86_64 aarch64 armhf riscv64" "$work/said" || { cat "$work/said"; fail "m68k is not refused clearly"; }
[ ! -e "$work/none" ] || fail "something was left for m68k"

# and away again: two files that are somebody else's stay, one of them among ours
files=$(find "$work/at" -type f | wc -l) others=$(find "$work/other" -type f | wc -l)
echo mine > "$work/at/include/mine.h"
echo mine > "$doc/mine"
make --no-print-directory -s uninstall PREFIX="$work/at" > "$work/said" 2>&1 || { cat "$work/said"; fail "make uninstall failed"; }
[ "$(cd "$work/at" && find . -type f | sort | paste -sd ' ')" = "./include/mine.h ./share/doc/kelindap/mine" ] || fail "uninstall leaves $(cd "$work/at" && find . -type f | paste -sd ' ')"
make --no-print-directory -s uninstall PREFIX="$work/other" > "$work/said" 2>&1 || { cat "$work/said"; fail "make uninstall failed"; }
[ -z "$(find "$work/other" -type f)" ] && [ ! -e "$work/other/share/doc/kelindap" ] || fail "uninstall leaves something of $other"
! make --no-print-directory -s uninstall PREFIX="$work/other" > "$work/said" 2>&1 || fail "nothing was installed, and it is taken away"
grep -q "uninstall: nothing was installed to" "$work/said" || fail "and nothing is said of it"
echo "install: $files files for $own, a host is built by $by; for $other $others files; m68k is refused; all is taken away again"
