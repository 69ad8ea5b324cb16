#!/usr/bin/env bash
# tests/docs/measure.sh DIR HOST_A TOOL_A STACK BENCH COMPARE [times]: measures what README and docs/SPEED.md quote of sizes,
# stack and instructions, and leaves in DIR a file for each block of figures there (tests/docs/figures.rs); ? is what can't be
# measured here: instructions on Linux are those of the machine's own processor and need valgrind, those on the boards the
# emulators. With `times` the benchmark takes its times too, which are quoted as those of one run and are not held.
set -euo pipefail
out=$1 host=$2 tool=$3 stack=$4 bench=$5 compare=$6 times=${7-}
processors=(cortex-m0 cortex-m3 cortex-m4 rv32imac)
own=$(mk/bin/processor)
mkdir -p "$out"
missing=()

# what a program that measures the stack says; it takes long in an emulator, so it runs once
said_by() { # PROGRAM
    local said=$out/${1//\//-}.said
    [ -s "$said" ] || "$1" > "$said"
    cat "$said"
}
rm -f "$out"/*.said

# what each tool says, in plain lines: processor, name, number
{
    for archive in "$host" "$tool"; do
        size "$archive" | awk -v name="${archive##*/}" 'NR > 1 { n += $1 + $2 } END { print "x86-64", name, n + 0 }'
    done
    said_by "$stack" | sed -n 's/^stack: kelindap_\(.*[a-z]\)  *\([0-9]*\) bytes$/\1=\2/p' | sed 's/, _/+/; s/ //g; s/=/ /' |
        sed 's/^/x86-64 /'
    for p in "${processors[@]}"; do
        mk/bin/sizes "$p" | awk -v p="$p" '{
            print p, "libkelindap_device.a", $3
            sub(/.*deepest stack: /, "")
            for (i = 1; i < NF; i += 2) print p, $i, $(i + 1)
        }'
    done
} > "$out/plain"

# Linux's processors: their libraries, and the stack where their programs run here
of() { make --no-print-directory -s PROCESSOR="$processor" "$@" > /dev/null; }
{
    echo "| Processor | libkelindap_device.a | libkelindap_pdu.a | Stack of a request |"
    echo "|---|---|---|---|"
    while read -r processor _; do
        folder=build/$processor
        [ "$processor" != "$own" ] || folder=build
        of native
        taken='?'
        if mk/bin/can "$processor" > /dev/null; then
            of "$folder/stack"
            taken=$(said_by "$folder/stack" | sed -n 's/.*kelindap_request *\([0-9]*\) bytes$/\1/p')
        fi
        # shellcheck disable=SC2016 # the marks are the document's
        printf '| `%s` |' "$processor"
        for archive in libkelindap_device.a libkelindap_pdu.a; do
            size "$folder/$archive" | awk 'NR > 1 { n += $1 + $2 } END { n = n + 0; printf " %s |", n < 1000 ? n : int(n / 1000) sprintf(",%03d", n % 1000) }'
        done
        echo " $taken |"
    done < <(grep '^[a-z]' mk/processors)
} > "$out/linux"

# instructions of requests: sheet, request and columns
: > "$out/bench.rows"
if ! command -v valgrind > /dev/null; then
    missing+=("instructions on $own (no valgrind)")
elif [ -n "$times" ]; then
    "$bench" | sed 1d > "$out/bench.rows"
else
    "$bench" --instructions | sed 1d > "$out/bench.rows"
fi
boards=()
for p in "${processors[@]}"; do
    case $p in cortex-*) emulator=qemu-system-arm ;; *) emulator=qemu-system-riscv32 ;; esac
    if command -v "$emulator" > /dev/null; then
        mk/bin/firmware "$p" bridge tests/compare/bridge.c tests/firmware/board.c tests/firmware/memory.c
        boards+=("build/firmware/$p/bridge")
    fi
done
if [ "${#boards[@]}" = "${#processors[@]}" ]; then
    COUNT=1 "$compare" --times "${boards[@]}" 2> /dev/null > "$out/boards.rows"
else
    missing+=("instructions on the boards (an emulator is missing)")
    : > "$out/boards.rows"
fi

# slots; x86-64's alone are counted by callgrind, where that is this machine's processor
tests/cuts/cost.sh "$host" > "$out/slots"

# the blocks; a table that could not be made is one ?
for processor in x86_64 aarch64; do
    if [ "$processor" = "$own" ] && [ -s "$out/bench.rows" ]; then
        sed 's/^/    /; s/ *$//' "$out/bench.rows"
    else
        echo "    ?"
    fi > "$out/bench-$processor"
done
# of the ratios to plain Rust the highest and the middle one, both kinds of machine side by side
{
    echo "| Sheet | x86-64, highest | middle | aarch64, highest | middle |"
    echo "|---|---|---|---|---|"
    for sheet in sample full; do
        mapfile -t ratio < <(awk -v sheet="$sheet" '$1 == sheet { print $NF }' "$out/bench.rows" | sort -n)
        of_own=" ? | ? |" of_other=" ? | ? |"
        [ ${#ratio[@]} = 0 ] || of_own=" ${ratio[-1]} | ${ratio[${#ratio[@]} / 2]} |"
        case $own in
        aarch64) echo "| $sheet |$of_other$of_own" ;;
        x86_64) echo "| $sheet |$of_own$of_other" ;;
        *) echo "| $sheet |$of_other$of_other" ;;
        esac
    done
} > "$out/ratios"
if [ -s "$out/boards.rows" ]; then
    { printf '%-31s' "sheet  request"; printf ' %9s' "${processors[@]}"; echo; cat "$out/boards.rows"; } | sed 's/^/    /'
else
    echo "    ?"
fi > "$out/boards"

awk -v out="$out" -v list="${processors[*]}" -v own="${own/x86_64/x86-64}" '
    function comma(n) { return n == "" ? "–" : n + 0 < 1000 ? n : substr(n, 1, length(n) - 3) "," substr(n, length(n) - 2) }
    function row(file, title, name,    i, line) {
        line = "| " title " |"
        for (i = 1; i <= n; i++) line = line " " comma(of[processor[i], name]) " |"
        print line > file
    }
    function head(file, title,    i, line, under) {
        line = "| " title " |"
        under = "|---|"
        for (i = 1; i <= n; i++) { line = line " " processor[i] " |"; under = under "---|" }
        print line > file
        print under > file
    }
    # the most instructions of a request on a sheet, by processor; the check of the sheet is none
    function most(p, sheet, x) { if (x + 0 > top[p, sheet] + 0) top[p, sheet] = x }
    function told(x) { return x == "" ? "?" : comma(sprintf("%.0f", x)) }
    BEGIN { n = split("x86-64 " list, processor, " ") }
    FILENAME ~ /plain$/ {
        of[$1, $2] = $3
        if ($1 == processor[2] && $2 !~ /\.a$|^version$/) call[++calls] = $2
    }
    FILENAME ~ /linux$/ && $2 == "`aarch64`" {
        gsub(",", "")
        of["aarch64", "libkelindap_device.a"] = $4
        of["aarch64", "request"] = $8
    }
    FILENAME ~ /bench.rows$/ && $1 ~ /^(sample|full)$/ && !/the check of/ { most(own, $1, $(NF - 2)) }
    FILENAME ~ /boards.rows$/ && !/the check of/ { for (i = 2; i <= n; i++) most(processor[i], $1, $(NF - n + i)) }
    END {
        file = out "/sizes"
        head(file, "Bytes")
        row(file, "libkelindap_device.a", "libkelindap_device.a")
        row(file, "libkelindap_pdu.a", "libkelindap_pdu.a")
        file = out "/stack"
        head(file, "Call")
        for (i = 1; i <= calls; i++) row(file, "`kelindap_" call[i] "`", call[i])
        row(file, "`kelindap_read` with `kelindap_write`", "read+write")
        row(file, "`kelindap_point_read` with `kelindap_point_write`", "point_read+write")
        row(file, "`kelindap_frame_read` with `kelindap_frame_write`", "frame_read+write")
        file = out "/summary"
        print "| Processor | Code, bytes | Stack of a request, bytes | Instructions of the longest request, sample sheet | full sheet |" > file
        print "|---|---|---|---|---|" > file
        m = split("x86-64 aarch64 " list, every, " ")
        for (i = 1; i <= m; i++) {
            p = every[i]
            print "| " p " | " comma(of[p, "libkelindap_device.a"]) " | " comma(of[p, "request"]) " | " told(top[p, "sample"]) " | " \
                told(top[p, "full"]) " |" > file
        }
    }' "$out/plain" "$out/linux" "$out/bench.rows" "$out/boards.rows"
[ ${#missing[@]} = 0 ] || printf 'figures: not measured: %s\n' "${missing[@]}"
