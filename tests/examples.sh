#!/usr/bin/env bash
# tests/examples.sh HOST HEIGHT SHEET: the example host at work, with the client of tests/c/bus_height.c, an old sheet, two tools at once, one that reads nothing, a
# frame that comes twice, an answer to a group, versions of the settings, a second start, names at which something stands, planted
# names, few descriptors, the time limits of transport, and the host killed 200 times during writes: what it
# saved is then an accepted sheet each time, with the height that was answered last or the one after it; and as often while
# versions are saved and removed: the store is then a good one, as it was after what was answered last or after the next; and
# 50 times during writes that are not answered: the sheet then has what was acknowledged last, or the next.
set -euo pipefail
host=$(realpath "$1") height=$(realpath "$2") sheet=$(realpath "$3")
top=$(realpath "$(dirname "$0")/..")
inc=$top/hosts/sample_sheet.inc
KILLS=${KILLS:-200}
work=$(mktemp -d)
pid=
trap '[ -z "$pid" ] || kill -9 "$pid" 2> /dev/null || true; rm -rf "$work"' EXIT
cd "$work"

wrong() { echo "examples: $*"; exit 1; }

# starts the host, and waits until it is ready
start() {
    local line=
    exec 6< <(exec "$host" sheet bus 2> complaints)
    pid=$!
    read -r -t 60 line <&6 || true
    [ "$line" = ready ] || wrong "the host does not start: $(cat complaints)"
}

# ends it as a power cut would, and waits for its end
stop() {
    kill -9 "$pid"
    cat <&6 > /dev/null
    exec 6<&-
    pid=
}

# the words of the tool and its status
told() {
    local status=0
    "$height" bus "$@" 2>&1 || status=$?
    echo "$status"
}
expect() { # WORDS, what the tool says and its status on the lines after
    local got
    got=$(told $1 | paste -sd ' ')
    [ "$got" = "$2" ] || wrong "height $1: expected \"$2\", got \"$got\""
}
saved() { od -An -tu1 -j64 -N2 sheet | awk '{ print 256 * $1 + $2 }'; }

grep -o '0x..' "$inc" | sed 's/0x/\\x/' | paste -sd '' > list
printf '%b' "$(cat list)" > sheet
cp sheet first
"$sheet" check sheet > /dev/null || wrong "the sample sheet is not accepted"

# an old sheet is converted at the first start, and whoever runs the host is told; what is bad is refused
{ printf '\x01' && tail -c +2 first; } > sheet
[ "$("$sheet" check sheet || true)" = "old: convert it" ] || wrong "the sample of edition 1 is not old"
start
expect read "1000 0"
stop
cmp -s sheet first || wrong "an old sheet was not converted, or more was changed"
grep -q '^host: sheet was of edition 1: it is converted' complaints || wrong "nobody is told that a sheet was converted"
start
stop
[ ! -s complaints ] || wrong "the converted sheet: $(cat complaints)"
{ printf '\x01' && tail -c +2 first | head -c 67; } > bad
! "$host" bad bus2 2> complaints || wrong "a bad sheet is served"
grep -q '^host: bad breaks S4' complaints || wrong "a bad sheet: $(cat complaints)"

start
expect read "1000 0"
expect "write 33333333 1250" "height: the device refuses 1"
expect read "1000 0"
cmp -s sheet first || wrong "a refused write has changed the file"
expect "write 22222222 1250 1251" "1250 1251 0"
expect read "1251 0"
expect "write 22222222 65536" "height: a word is no number, or one too big 2"

# two tools at once: one without the key, beside one that has it and goes on writing
"$height" bus write 22222222 $(seq 3000 22999) > answers 2> /dev/null &
tool=$!
for ((waited = 0; waited < 6000; waited++)); do
    [ ! -s answers ] || break
    sleep 0.01
done
expect "write 33333333 1250" "height: the device refuses 1"
now=$("$height" bus read)
{ [ "$now" -ge 3000 ] && [ "$now" -le 22999 ]; } || wrong "beside a tool that writes from 3000 on, the height $now is read"
for ((waited = 0; waited < 1000; waited++)); do
    [ "$(tail -n 1 answers)" -lt "$now" ] || break
    sleep 0.01
done
kill "$tool" 2> /dev/null || wrong "the tool with the key did not last, or was disturbed"
wait "$tool" || true
[ "$(tail -n 1 answers)" -ge "$now" ] || wrong "the tool with the key wrote nothing after the other one was refused"
expect "write 22222222 1251" "1251 0"

# a partner that reads nothing is dropped, and the other is served all the while
gcc -std=c11 -O2 -Wall -Wextra -Werror -I"$top/examples" -I"$top/hosts/device" -o deaf "$top/tests/c/deaf.c"
timeout 60 ./deaf bus > deaf-said &
deaf=$!
for ((turn = 0; turn < 20; turn++)); do
    [ "$(timeout 10 "$height" bus read 2>&1)" = 1251 ] || wrong "beside a partner that reads nothing nobody is served"
done
wait "$deaf" || wrong "a partner that reads nothing: $(cat deaf-said)"
[ "$(cat deaf-said)" = dropped ] || wrong "a partner that reads nothing was not dropped"

# a bit write that comes twice, its acknowledgement having been lost, is acknowledged twice and carried out once: the byte is another
# after it, and as before after one more
gcc -std=c11 -O2 -Wall -Wextra -Werror -I"$top/examples" -I"$top/hosts/device" -o twice "$top/tests/c/twice.c"
for byte in af a0; do
    said=$(timeout 10 ./twice bus || true)
    [ "$said" = "answers 0 1 2, acknowledged 2 times" ] || wrong "a bit write that comes twice: $said"
    now=$(od -An -tx1 -j60 -N1 sheet | tr -d ' ')
    [ "$now" = "$byte" ] || wrong "a bit write that comes twice leaves $now in place of $byte"
done

# an answer to a group goes to everybody on the bus, one to an address to nobody else
gcc -std=c11 -O2 -Wall -Wextra -Werror -I"$top/examples" -I"$top/hosts/device" -o hears "$top/tests/c/hears.c"
said=$(timeout 10 ./hears bus || true)
[ "$said" = "asks told all, listens all" ] || wrong "who hears what: $said"
stop
changes=$("$sheet" diff first sheet || true)
[ "$changes" = "property 1/51 element 1: 1000 → 1251" ] || wrong "the file holds another change: $changes"
start
expect read "1251 0"
stop
expect read "height: there is no such bus 2"

# programming mode does not survive a start
"$sheet" show --keys sheet | sed 's/^programming off/programming on/' > text
"$sheet" make text > sheet
start
stop
"$sheet" show sheet | grep -q '^programming off' || wrong "the host starts in programming mode"

# versions: a wrong height is undone by who has key 0, and by nobody else; what was answered is in the file
start
expect "versions 33333333 save" "height: refused 1"
expect "versions 22222222 save" "save 1 0"
expect "write 22222222 9000" "9000 0"
expect "versions 22222222 restore=1" "height: not open at level 0 1"
expect "versions 33333333 restore=1 remove=1" "height: not open at level 0 1"
expect read "9000 0"
stop
since=$("$sheet" versions diff sheet.store 1 sheet || true)
[ "$since" = "property 1/51 element 1: 1251 → 9000" ] || wrong "another change since version 1: $since"
start
expect "versions 11111111 restore=2" "height: no such version is kept 1"
expect "versions 11111111 restore=1" "restore 1 0"
stop
"$sheet" versions diff sheet.store 1 sheet || wrong "what was restored is not in the file"
start
expect read "1251 0"
expect "versions 11111111 save remove=2 save" "save 2 remove 2 save 3 0"
expect "versions 11111111 remove=3 remove=3" "remove 3 height: no such version is kept 1"
stop
"$sheet" versions sheet.store | head -n 1 > list
[ "$(cat list)" = "1 version, last number 3, 4096 bytes, 4062 free" ] || wrong "another store: $(cat list)"

# the edges: a number that nothing was before, a packet that is none, more lines than descriptors
gcc -std=c11 -O2 -Wall -Wextra -Werror -I"$top/examples" -I"$top/hosts/device" -o edges "$top/tests/c/edges.c"
edge() { # WORD, what it says
    local got
    got=$(timeout 30 ./edges bus "$1" || true)
    [ "$got" = "$2" ] || wrong "edges $1: expected \"$2\", got \"$got\""
}
start
edge number "15: ff, 0: c2 43"
edge zero "0: 0, remove: 11"
# started twice on one sheet, by its name and by a link to it; names at which something stands, which stays as it is
refuses() { # the words of the host, and what it says
    local status=0
    timeout 10 "$host" $1 > /dev/null 2> complaints || status=$?
    [ "$status" = 1 ] && [ "$(cat complaints)" = "host: $2" ] || wrong "host $1: status $status, $(cat complaints)"
}
ln -s sheet link
cp sheet other
cp sheet as-it-was
refuses "sheet bus2" "sheet: is served by another program"
refuses "link bus2" "link: is served by another program"
refuses "other bus" "bus: is the socket of another program"
refuses "other other" "other: is there already, and is no socket: it stays as it is"
refuses "other sheet" "sheet: is there already, and is no socket: it stays as it is"
refuses "other none/bus" "none/bus: can't be listened on: No such file or directory"
refuses "none bus2" "none: can't be read: No such file or directory"
cmp sheet as-it-was && cmp other as-it-was || wrong "a start that was refused has changed a file"
expect read "1251 0"
stop
# what can't be saved is told with its own reason, and the host stops; a name that is planted is not written through
start
mkdir sheet.new
expect "write 22222222 1300" "height: the device is gone 2"
[ "$(cat complaints)" = "host: sheet: can't be saved: Is a directory" ] || wrong "a save that fails: $(cat complaints)"
pid=
rmdir sheet.new
echo "as it was" > victim
ln -s victim tank.new
mv sheet tank && ln -s tank sheet
start
expect "write 22222222 1300 1251" "1300 1251 0"
stop
[ "$(cat victim)" = "as it was" ] || wrong "a file that was planted is written through"
[ -L sheet ] && [ ! -L tank ] && cmp tank as-it-was || wrong "a sheet that is a link does not stay one"
rm sheet && mv tank sheet && rm -f tank.* link
(ulimit -n 12 && exec "$host" other bus3 > ready 2> complaints) &
pid=$!
for ((waited = 0; waited < 500; waited++)); do [ ! -s ready ] || break; sleep 0.01; done
mv bus bus.kept 2> /dev/null || true
mv bus3 bus
edge lines "served, others turned away"
expect "write 22222222 1300" "1300 0"
kill -9 "$pid" && { wait "$pid" 2> /dev/null || true; }
pid=
# time limits, beside what follows: two hosts of their own, which are ended at the end
limits() { # NAME WORD
    mkdir "$1" && cp as-it-was "$1/sheet"
    (cd "$1" && exec "$host" sheet bus > ready 2> /dev/null) &
    echo $! > "$1/pid"
    for ((waited = 0; waited < 500; waited++)); do [ ! -s "$1/ready" ] || break; sleep 0.01; done
    timeout 40 ./edges "$1/bus" "$2" > "$1/said" || true
    kill -9 "$(cat "$1/pid")"
}
limits one silence &
one=$!
limits two repeat &
two=$!

# killed at any moment
during=0
for ((i = 0; i < KILLS; i++)); do
    before=$(saved)
    first=$((i % 2 == 0 ? 2000 : 20000))
    start
    : > answers
    "$height" bus write 22222222 $(seq "$first" $((first + 9999))) > answers 2> /dev/null &
    tool=$!
    for ((waited = 0; waited < 6000; waited++)); do
        [ ! -s answers ] || break
        sleep 0.01
    done
    sleep "0.00$((RANDOM % 10))$((RANDOM % 10))"
    stop
    wait "$tool" || true
    last=$(tail -n 1 answers)
    if [ -n "$last" ]; then next=$((last + 1)); else last=$before next=$first; fi
    [ ! -s answers ] || [ "$last" = $((first + 9999)) ] || during=$((during + 1))
    "$sheet" check sheet > verdict || wrong "kill $i left a sheet that is not accepted: $(cat verdict)"
    now=$(saved)
    [ "$now" = "$last" ] || [ "$now" = "$next" ] || wrong "kill $i left $now, where $last was answered"
done
[ "$during" -ge $((KILLS / 2)) ] || wrong "only $during of $KILLS kills fell into writes"
echo "examples: killed $KILLS times, $during of them during writes; each time the sheet saved was the old or the new one"

# the same while versions are saved and removed: the store tells how many of the words were carried out
words=() during=0
carried() { # FIRST: how many words since the last number given was FIRST
    "$sheet" versions sheet.store > list || wrong "a store that is not good: $(cat list)"
    local last kept=0
    last=$(sed -n '1s/.*last number \([0-9]*\),.*/\1/p' list)
    ! grep -q "^version $last:" list || [ "$last" = "$1" ] || kept=1
    echo $((2 * (last - $1) - kept))
}
for ((i = 0; i < KILLS; i++)); do
    "$sheet" versions sheet.store > list
    first=$(sed -n '1s/.*last number \([0-9]*\),.*/\1/p' list)
    # a version that the last kill left is no part of this
    start
    ! grep -q "^version $first:" list || [ "$first" = 1 ] || expect "versions 11111111 remove=$first" "remove $first 0"
    [ "$first" -lt 60000 ] || wrong "more numbers are given than the test has"
    words=()
    for ((n = first + 1; n <= first + 200; n++)); do words+=(save "remove=$n"); done
    : > answers
    "$height" bus versions 22222222 "${words[@]}" > answers 2> /dev/null &
    tool=$!
    for ((waited = 0; waited < 6000; waited++)); do
        [ ! -s answers ] || break
        sleep 0.01
    done
    sleep "0.00$((RANDOM % 10))$((RANDOM % 10))"
    stop
    wait "$tool" || true
    told=$(wc -l < answers)
    { [ "$told" = 0 ] || [ "$told" = 400 ]; } || during=$((during + 1))
    now=$(carried "$first")
    [ "$now" = "$told" ] || [ "$now" = $((told + 1)) ] || wrong "kill $i left a store after $now words, where $told were answered"
    grep -q '^version 1: 1 property, 18 bytes' list || wrong "kill $i left a store without version 1"
done
[ "$during" -ge $((KILLS / 2)) ] || wrong "only $during of $KILLS kills fell into saves and removes"
echo "examples: killed $KILLS times, $during of them during saves and removes; each time the store was the old or the new one"

# and during writes of memory out of verify mode, which are acknowledged and not answered
gcc -std=c11 -O2 -Wall -Wextra -Werror -I"$top/examples" -I"$top/hosts/device" -o acked "$top/tests/c/acked.c"
"$sheet" show --keys sheet | sed 's/^verify on/verify off/' > text
"$sheet" make text > sheet
"$sheet" show sheet | grep -q '^verify off' || wrong "verify mode can't be left"
for ((i = 0; i < KILLS / 4; i++)); do
    start
    : > answers
    ./acked bus > answers &
    tool=$!
    for ((waited = 0; waited < 6000; waited++)); do
        [ ! -s answers ] || break
        sleep 0.01
    done
    sleep "0.00$((RANDOM % 10))$((RANDOM % 10))"
    stop
    wait "$tool" || wrong "a partner that writes memory was not served"
    last=$(tail -n 1 answers) now=$(od -An -tu1 -j60 -N1 sheet | tr -d ' ')
    [ "$now" = $((last % 256)) ] || [ "$now" = $(((last + 1) % 256)) ] || wrong "kill $i left $now, where $last was acknowledged"
done
echo "examples: killed $((KILLS / 4)) times during writes that are not answered; each time the sheet saved had what was acknowledged"

wait "$one" "$two" 2> /dev/null || true
[ "$(cat one/said)" = "third: 81, two: 81 81 after 6 s, third: c2" ] || wrong "silent partners: $(cat one/said)"
[ "$(cat two/said)" = "c2 at 0 s, 43 at 0 s, 43 at 3 s, 43 at 6 s, 43 at 9 s, 81 at 12 s, end" ] || wrong "an answer that is not acknowledged: $(cat two/said)"
echo "examples: a second start, names at which something stands, planted names, few descriptors, and the time limits of transport are as due"
