#!/usr/bin/env bash
# tests/c/readme.sh HOST_A TOOL_A: the program in README is compiled by its own line and says what README says; the pieces of code in
# docs/LINKING.md compile without a warning, as C11 and, where g++ is installed,
# as C++; and the host that they make does its duties on a bus where it is not alone, over the plainest of stubs: what is printed is
# what runs. CC_FOR makes programs for the archives; where it is this machine's own, sanitizers watch (SANITIZE).
set -euo pipefail
host=$(realpath "$1") tool=$(realpath "$2")
cd "$(dirname "$0")/../.."
work=$(mktemp -d)
trap 'rm -rf "$work"' EXIT

# the indented block that begins with a line like PATTERN, up to the next line of text
piece() {
    awk -v pattern="$1" '
        $0 ~ "^    .*" pattern { on = 1 }
        on && /^[^ ]/ { exit }
        on { print substr($0, 5) }' "${2:-docs/LINKING.md}"
}
{
    cat tests/c/readme.inc
    piece 'static kelindap_unit unit;'
    echo 'static void ask_height(void) {'
    piece 'kelindap_pdu ask = '
    echo '}'
    piece 'static uint8_t last_in.KELINDAP_CONNECTIONS.'
    echo 'static void read_frame(const uint8_t *frame, size_t length) {'
    piece 'kelindap_frame f = '
    echo '}'
    echo 'static void set_warm(void) {'
    piece 'kelindap_point warm = '
    echo '}'
    cat tests/c/readme_bus.inc
} > "$work/readme.c"
[ "$(grep -c 'kelindap_unit_request(&unit, way\|kelindap_write\|kelindap_unit_serve(&unit\|kelindap_frame_read' "$work/readme.c")" = 5 ] || { echo "readme: a piece is missing"; exit 1; }

# README's program, by README's own line, in a folder that looks as this one does to it
piece '#include <stdio.h>' README.md > "$work/host.c"
line=$(grep '^    gcc .* host.c ' README.md) said=$(piece 'outcome 11:' README.md)
[ -n "$line" ] && [ -n "$said" ] || { echo "readme: README shows no program, no line or not what it says"; exit 1; }
if [ "${CC_FOR##* }" = "$(mk/bin/processor)" ]; then
    mkdir -p "$work/at/build"
    ln -s "$PWD/include" "$PWD/hosts" "$work/at"
    ln -s "$host" "$work/at/build/libkelindap_device.a"
    ln -s "$tool" "$work/at/build/libkelindap_pdu.a"
    cp "$work/host.c" "$work/at"
    (cd "$work/at" && bash -euo pipefail -c "$line" && ./host > said)
    [ "$(cat "$work/at/said")" = "$said" ] || { cat "$work/at/said"; echo "readme: README's program says something else"; exit 1; }
fi

flags=(-Wall -Wextra -Wpedantic -Werror -Iinclude -I.)
gcc -std=c11 "${flags[@]}" -c "$work/readme.c" -o "$work/c.o"
languages=C11
if command -v g++ > /dev/null; then
    for std in c++11 c++20; do g++ -std=$std "${flags[@]}" -x c++ -c "$work/readme.c" -o "$work/cc.o"; done
    languages+=" and C++"
fi
read -ra watch <<< "${SANITIZE:-}"
$CC_FOR -o "$work/readme" -std=c11 -g "${watch[@]}" "${flags[@]}" "$work/readme.c" "$host" "$tool"
ASAN_OPTIONS=detect_leaks=0 "$work/readme"
echo "readme: its program says what it should; LINKING's code compiles as $languages; the host that it makes answers for itself and for no neighbour"
