#!/usr/bin/env bash
# tests/deb.sh: Debian's packages. Those for this machine are installed by dpkg in an empty root of their own: a host is built from what
# stands there alone, the programs and the Python package run from there, each man page shows the words of --help, and after a purge
# nothing is left. Of the packages for other processors the fields and the libraries are looked at. What is missing here is said.
set -euo pipefail
cd "$(dirname "$0")/.."
command -v dpkg-deb > /dev/null && command -v dpkg > /dev/null || { echo "deb: left out: there is no dpkg here"; exit 0; }
work=$(mktemp -d)
trap 'rm -rf "$work"' EXIT
root=$work/root
fail() { echo "deb: $1"; exit 1; }
version=$(sed -n 's/.*KELINDAP_VERSION_TEXT "\(.*\)"/\1/p' include/kelindap_common.h)
own=$(mk/bin/processor)
left_out=()

# the libraries' package of each, made anew
rm -rf build/deb
while read -r processor debian triple _; do
    make --no-print-directory -s deb PROCESSOR="$processor" > "$work/said" 2>&1 || { cat "$work/said"; fail "make deb for $processor failed"; }
    package=build/deb/libkelindap-dev_${version}_$debian.deb
    [ "$(dpkg-deb -f "$package" Package Version Architecture Multi-Arch | paste -sd ' ')" = \
        "Package: libkelindap-dev Version: $version Architecture: $debian Multi-Arch: same" ] || fail "$package has other fields"
    rm -rf "$work/of"
    dpkg-deb -x "$package" "$work/of"
    for archive in libkelindap_device.a libkelindap_pdu.a libkelindap_plain.a; do
        folder=build/$processor
        [ "$processor" != "$own" ] || folder=build
        cmp "$folder/$archive" "$work/of/usr/lib/$triple/$archive" || fail "$package has another $archive"
    done
    for header in include/*.h; do cmp "$header" "$work/of/usr/$header" || fail "$package has another $header"; done
    grep -qx "processor=$processor" "$work/of/usr/lib/$triple/pkgconfig/kelindap.pc" || fail "$package does not name $processor"
    grep -qx "Requires: kelindap = $version" "$work/of/usr/lib/$triple/pkgconfig/kelindap-plain.pc" || fail "$package has no kelindap-plain"
    [ "$(find "$work/of" -type f | wc -l)" = $(($(find include -name '*.h' | wc -l) + 7)) ] || fail "$package has other files"
done < <(grep '^[a-z]' mk/processors)

# what the headers name, in a package of its own for all processors
package=build/deb/kelindap-doc_${version}_all.deb
[ "$(dpkg-deb -f "$package" Package Version Architecture | paste -sd ' ')" = "Package: kelindap-doc Version: $version Architecture: all" ] || fail "$package has other fields"
[ "$(dpkg-deb -f "build/deb/libkelindap-dev_${version}_$(awk -v own="$own" '$1 == own { print $2 }' mk/processors).deb" Recommends)" = "kelindap-doc (= $version)" ] || fail "libkelindap-dev does not ask for kelindap-doc"

# this machine's own, in an empty root
read -r _ debian triple _ < <(grep "^$own " mk/processors)
as_root=()
[ "$(id -u)" = 0 ] || as_root=(fakeroot)
[ ${#as_root[@]} = 0 ] || command -v fakeroot > /dev/null ||
    { echo "deb: libkelindap-dev for $(grep -c '^[a-z]' mk/processors) processors; left out: installing, which takes root or fakeroot"; exit 0; }
# also where the machine's own dpkg leaves man pages out
in_root() {
    "${as_root[@]}" dpkg --root="$root" --log=/dev/null --force-not-root --force-bad-path --force-script-chrootless \
        --path-include='/usr/share/man/*' --path-include='/usr/share/doc/*' "$@" > "$work/said" 2>&1 || { cat "$work/said"; fail "dpkg $*"; }
}
mkdir -p "$root/var/lib/dpkg"/{info,updates,triggers}
: > "$root/var/lib/dpkg/status"
: > "$root/var/lib/dpkg/available"
# a root that holds nothing has no C library either, for which the package asks
dpkg-deb -f "build/deb/kelindap-tools_${version}_$debian.deb" Depends | grep -q '^libc6 (>= [0-9.]*), libgcc-s1$' || fail "kelindap-tools asks for other packages"
needed=$(objdump -p build/sheet build/trace build/unit build/kelindap-device build/kelindap-tool | awk '$1 == "NEEDED" && $2 !~ /^ld-linux/ { print $2 }' | sort -u | paste -sd ' ')
[ "$needed" = "libc.so.6 libgcc_s.so.1" ] || fail "the programs need $needed"
packages=(libkelindap-dev kelindap-tools)
if command -v python3 > /dev/null; then
    packages+=(python3-kelindap)
    [[ $(dpkg-deb -f "build/deb/python3-kelindap_${version}_$debian.deb" Depends) =~ ^python3\ \(\>=\ 3\.[0-9]+\),\ libc6\ \(\>=\ [0-9.]+\)$ ]] || fail "python3-kelindap asks for other packages"
    needed=$(objdump -p build/libkelindap.so.0 | awk '$1 == "NEEDED" { print $2 }')
    [ "$needed" = libc.so.6 ] || fail "the library of the Python package needs $needed"
else
    left_out+=("python3-kelindap (no python3)")
fi
archives=("${packages[@]/%/_${version}_$debian.deb}" "kelindap-doc_${version}_all.deb")
packages=(kelindap-doc "${packages[@]}")
in_root --force-depends -i "${archives[@]/#/build/deb/}"
files=$(find "$root/usr" -type f | wc -l)
for package in "${packages[@]}"; do
    about=$root/usr/share/doc/$package
    grep -q '^No licence is given yet' "$about/copyright" && grep -q 'placeholder' "$about/copyright" || fail "$package says nothing of its licence and maintainer"
    gzip -dc "$about/changelog.gz" | cmp -s - CHANGELOG.md || fail "$package has another list of changes"
done

by="its own words"
flags="-I$root/usr/include -L$root/usr/lib/$triple -lkelindap_device -lkelindap_pdu"
if command -v pkg-config > /dev/null; then
    by=pkg-config
    flags=$(PKG_CONFIG_SYSROOT_DIR=$root PKG_CONFIG_LIBDIR=$root/usr/lib/$triple/pkgconfig PKG_CONFIG_ALLOW_SYSTEM_CFLAGS=1 \
        PKG_CONFIG_ALLOW_SYSTEM_LIBS=1 pkg-config --cflags --libs kelindap)
fi
read -ra words <<< "$flags"
gcc -o "$work/host" -std=c11 tests/c/installed.c "${words[@]}"
[ "$("$work/host")" = "$version 1 1 no PDU that can be written, not 32 to 16,384 bytes" ] || fail "the host said $("$work/host")"

doc=$root/usr/share/doc/kelindap
for name in README.md docs/SHEET.md examples/host.c sheets/sample.sheet sheets/sample.txt sheets/sample.inc kelindap.html; do [ -s "$doc/$name" ] || fail "kelindap-doc has no $name"; done
[ "$("$root/usr/bin/kelindap-sheet" check "$doc/sheets/pump.sheet")" = OK ] || fail "kelindap-sheet does not accept the pump's sheet"
[ ! -e "$doc/installed" ] || fail "kelindap-doc has the list of make install"

"$root/usr/bin/kelindap-unit" < tests/unit/story.in | cmp - tests/unit/story.out || fail "kelindap-unit plays another story"
grep -o '0x..' hosts/sample_sheet.inc | sed 's/0x/\\x/' | paste -sd '' > "$work/list"
printf '%b' "$(cat "$work/list")" > "$work/sheet"
[ "$("$root/usr/bin/kelindap-sheet" check "$work/sheet")" = OK ] || fail "kelindap-sheet does not accept the sample sheet"
printf '\0\0' > "$work/trace"
[ "$("$root/usr/bin/kelindap-trace" play "$work/sheet" "$work/trace" | tail -n 1)" = "sheet unchanged" ] || fail "kelindap-trace does not play"

# the device on a bus, on a free port of the loopback: it starts, is asked, and ends
[ -s "$root/usr/lib/systemd/system/kelindap-device@.service" ] || fail "there is no unit for systemd"
"$root/usr/bin/kelindap-device" "$work/sheet" --port 0 > "$work/ready" 2> "$work/log" &
device=$!
for ((waited = 0; waited < 500; waited++)); do [ ! -s "$work/ready" ] || break; sleep 0.01; done
"$root/usr/bin/kelindap-device" ctl "$work/sheet" state > "$work/state" || { kill "$device"; fail "kelindap-device does not answer: $(cat "$work/log")"; }
height=$("$root/usr/bin/kelindap-tool" read 1.1.5 1/51 --via "127.0.0.1:$(cut -d ' ' -f 2 "$work/ready")") || { kill "$device"; fail "kelindap-tool reads nothing"; }
[ "$height" = 1000 ] || { kill "$device"; fail "kelindap-tool reads $height"; }
kill "$device"
wait "$device" || fail "kelindap-device does not end in order"
[ "$(head -n 1 "$work/state")" = "device 1.1.5 programming off" ] || fail "kelindap-device is in another state: $(cat "$work/state")"

words_of() { grep -o '[^[:space:]]*'; }
# a page has the words of --help, but for those of its head and foot
for program in kelindap-sheet:tools/sheet kelindap-trace:tools/trace kelindap-unit:hosts kelindap-device:hosts/device kelindap-tool:tools/tool; do
    text=${program#*:}/${program%%:*}.txt name=${program%%:*}
    "$root/usr/bin/$name" --help | cmp - "$text" || fail "$name --help says something else"
    if command -v man > /dev/null && command -v groff > /dev/null; then
        MANWIDTH=200 man --warnings --nh --nj -E UTF-8 -l "$root/usr/share/man/man1/$name.1.gz" > "$work/page" 2> "$work/err" || fail "man shows no $name"
        [ ! -s "$work/err" ] || { cat "$work/err"; fail "the page of $name has faults"; }
        sed -e '1,/^NAME/{/^NAME/!d}' -e '$d' "$work/page" | words_of | cmp - <(words_of < "$text") || fail "the page of $name has other words than --help"
    else
        left_out+=("the page of $name (no man)")
    fi
done

# the completions, of what stands there, as bash-completion finds them
for name in sheet trace unit device tool; do [ -s "$root/usr/share/bash-completion/completions/kelindap-$name" ] || fail "no completions of kelindap-$name"; done
tests/shell/complete.sh "$root/usr/bin" "$root/usr/share/bash-completion/completions/kelindap-sheet" > "$work/said" || { cat "$work/said"; fail "completions"; }

# the Python package, with the library that stands there
if [ "${packages[*]: -1}" = python3-kelindap ]; then
    modules=$root/usr/lib/python3/dist-packages
    [ "$(cd / && PYTHONDONTWRITEBYTECODE=1 PYTHONPATH=$modules python3 -c 'import kelindap; print(kelindap.__file__)')" = "$modules/kelindap/__init__.py" ] ||
        fail "another Python package is found"
    for test in lost refusals whole; do
        PYTHONDONTWRITEBYTECODE=1 PYTHONPATH=$modules python3 "tests/python/$test.py" > "$work/said" || { cat "$work/said"; fail "the Python package fails"; }
    done
    diff -r -x libkelindap.so.0 -x __pycache__ build/python/kelindap "$modules/kelindap" || fail "python3-kelindap has another package"
fi

in_root -P "${packages[@]}"
[ -z "$(find "$root" -path "$root/var" -prune -o -type f -print)" ] || fail "a purge leaves files"
echo "deb: libkelindap-dev for $(grep -c '^[a-z]' mk/processors) processors; on $own $files files of ${packages[*]} in an empty root, a host is built by $by, the programs run, nothing is left"
[ ${#left_out[@]} = 0 ] || echo "deb: left out: ${left_out[*]}"
