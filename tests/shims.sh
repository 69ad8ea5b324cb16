#!/usr/bin/env bash
# tests/shims.sh PROCESSOR: a fault planted in a shim is found. The shims are changed at one place at a time, in the text that the
# compiler sees once a line is expanded: any two arguments of one kind exchanged in a call of the module, any length given a
# byte short, and what is made of a result changed. With each fault the desk unit, linked for PROCESSOR, plays its scripts and
# the frames of the vectors until an answer differs or it ends; if none does, the tests in C of store, trace and link are tried,
# which have numbers above 255 and look at the parts that were stored. No script has the calls on slots: a fault in one of these is
# left to their own test in C. Without a fault nothing differs.
set -euo pipefail
processor=$1
cd "$(dirname "$0")/.."
work=$(mktemp -d)
trap 'rm -rf "$work"' EXIT
fail() { echo "shims: $processor: $1"; exit 1; }

# what is played, as NAME.in and NAME.out; the events by the plain engine too
mkdir "$work/play"
cp tests/unit/{engines,events,fields,links,listed,lookups,old,points,ranges,read,tools,traces,user_memory,versions}.{in,out} "$work/play"
for script in events user_memory; do
    for end in in out; do { echo "engine plain" && cat "tests/unit/$script.$end"; } > "$work/play/plain_$script.$end"; done
done
grep -v '^#' tests/vectors/frame.tsv | cut -f 2 > "$work/play/frames.in"
grep -v '^#' tests/vectors/frame.tsv | cut -f 3 > "$work/play/frames.out"

for name in host tool plain_host; do
    mk/bin/native "$processor" "$name" -E > "$work/$name.c"
    mk/bin/native "$processor" "$name" "$work/lib$name.a"
done
c=(-std=c11 -O2 -Iinclude -Ibuild)
mk/bin/cc "$processor" -c -o "$work/unit.o" "${c[@]}" hosts/unit.c
in_c=(store_test trace_test link_test)
mk/bin/cc "$processor" -c -o "$work/slots_test.o" "${c[@]}" -DROUNDS=400 tests/c/slots_test.c
for test in "${in_c[@]}"; do mk/bin/cc "$processor" -c -o "$work/$test.o" "${c[@]}" -DROUNDS=4000 "tests/c/$test.c"; done

# HOST_A TOOL_A PLAIN_A: whether the unit with these answers as it should
plays() {
    local script test
    mk/bin/cc "$processor" -o "$work/unit" "$work/unit.o" "$1" "$2" "$3"
    for script in "$work"/play/*.in; do
        timeout 60 "$work/unit" < "$script" 2> /dev/null | cmp -s - "${script%.in}.out" || return 1
    done
    for test in "${in_c[@]}"; do
        mk/bin/cc "$processor" -o "$work/$test" "$work/$test.o" "$1" "$2"
        timeout 60 "$work/$test" > /dev/null 2>&1 || return 1
    done
}
slots_play() {
    mk/bin/cc "$processor" -o "$work/slots_test" "$work/slots_test.o" "$1" "$2"
    timeout 60 "$work/slots_test" > /dev/null 2>&1
}
plays "$work/libhost.a" "$work/libtool.a" "$work/libplain_host.a" || fail "the scripts differ without a fault"
slots_play "$work/libhost.a" "$work/libtool.a" || fail "the slots differ without a fault"

# the faults as NAME, a tab, the number of a line, a tab, and what stands there: exchanges and lengths by the calls' own text
faults_of() {
    awk -v file="$1" -v OFS='\t' '
        function integer(type) { return type == "word" || type == "uint64_t" }
        # the room for a copy of the sheet is as long as the sheet, or the call is refused whatever else it is given
        function same(a, b) { return a ~ /sheet_length$/ && b ~ /before_length$/ }
        {
            if (!match($0, /kelindap_module_[a-z_]*\([^()]*\);/)) next
            call = substr($0, RSTART, RLENGTH); after = substr($0, RSTART + RLENGTH); before = substr($0, 1, RSTART + RLENGTH - 1)
            name = call; sub(/\(.*/, "", name)
            sub(/^[^(]*\(/, "", call); sub(/\);$/, "", call)
            types = split(call, type, ", ")
            at = index(after, name "(") + length(name) + 1
            head = before substr(after, 1, at - 1); rest = substr(after, at)
            for (depth = end = 1; depth > 0; end++) {
                c = substr(rest, end, 1)
                if (c == "(") depth++
                if (c == ")") depth--
            }
            tail = substr(rest, end - 1)
            count = split(substr(rest, 1, end - 2), given, ", ")
            if (count != types && call != "void") { print "shims: " name " is not understood" > "/dev/stderr"; exit 1 }
            short = name; sub(/kelindap_module_/, "", short)
            for (i = 1; i <= count; i++) {
                if (given[i] ~ /_length$/) planted(short ": " given[i] " a byte short", i, given[i] " - 1", 0, "")
                for (j = i + 1; j <= count; j++)
                    if ((type[i] == type[j] || integer(type[i]) && integer(type[j])) && !same(given[i], given[j]))
                        planted(short ": arguments " i " and " j " exchanged", i, given[j], j, given[i])
            }
        }
        function planted(what, i, a, j, b,    k, text) {
            for (k = 1; k <= count; k++) text = text (k > 1 ? ", " : "") (k == i ? a : k == j ? b : given[k])
            print what, NR, head text tail
        }' "$work/$1.c"
}
# the same of a result, by a piece of its text: where it stands last in its line, which is of reading if there are both
changed() { # LIBRARY NAME FROM TO
    awk -v name="$2" -v from="$3" -v to="$4" -v OFS='\t' '
        !done && index($0, from) {
            for (at = length($0); substr($0, at, length(from)) != from; at--);
            print name, NR, substr($0, 1, at - 1) to substr($0, at + length(from))
            done = 1
        }
        END { exit !done }' "$work/$1.c" >> "$work/$1.faults" || fail "$2: its text is in no line of the shim"
}
for name in host tool plain_host; do faults_of "$name" > "$work/$name.faults"; done
changed host "fresh: a byte beside the level" 'high(r >> 16)' 'high(r >> 8)'
changed host "reply: outcome and count exchanged" '(kelindap_reply){ from.outcome, from.count,' '(kelindap_reply){ from.count, from.outcome,'
changed host "reply: a part's length for its offset" 'from.count, { { (size_t)from.part[0],' 'from.count, { { (size_t)from.part[1],'
changed host "reply: the first part twice" '(size_t)from.part[2], (size_t)from.part[3]' '(size_t)from.part[0], (size_t)from.part[1]'
changed host "saved: the number a byte short" '(uint16_t)(r >> 16)' 'low(r >> 16)'
changed host "saved: the number for the outcome" '(kelindap_saved){ low(r),' '(kelindap_saved){ low(r >> 16),'
changed host "played: how many for the refusal" '(kelindap_played){ low(r),' '(kelindap_played){ low(r >> 16),'
changed host "played: how many, a byte short" '(kelindap_played){ low(r), (uint16_t)(r >> 16)' '(kelindap_played){ low(r), low(r >> 16)'
changed host "listed: number and length exchanged" '(kelindap_listed){ (uint16_t)r, (uint16_t)(r >> 16) }' '(kelindap_listed){ (uint16_t)(r >> 16), (uint16_t)r }'
changed host "listed: the number a byte short" '(kelindap_listed){ (uint16_t)r,' '(kelindap_listed){ low(r),'
changed host "arrival: event and connection exchanged" '(kelindap_arrival){ (uint8_t)r, (uint8_t)(r >> 8),' '(kelindap_arrival){ (uint8_t)(r >> 8), (uint8_t)r,'
changed host "arrival: the group a byte short" '(uint8_t)(r >> 8), (uint16_t)(r >> 16)' '(uint8_t)(r >> 8), (uint8_t)(r >> 16)'
changed host "arrival: the group for the source" '(uint16_t)(r >> 32)' '(uint16_t)(r >> 16)'
changed host "arrival: a byte beside the sequence number" '(uint8_t)(r >> 48)' '(uint8_t)(r >> 40)'
changed host "arrival: the sequence number for the last byte" '(uint8_t)(r >> 56)' '(uint8_t)(r >> 48)'
changed host "served: number and outcome exchanged" '(kelindap_served){ from.number, from.outcome,' '(kelindap_served){ from.outcome, from.number,'
changed host "served: connection and count exchanged" 'from.outcome, from.connection, from.count,' 'from.outcome, from.count, from.connection,'
changed host "served: a part's length for its offset" 'from.connection, from.count, { { (size_t)from.part[0],' 'from.connection, from.count, { { (size_t)from.part[1],'
changed host "served: the first part twice" 'from.connection, from.count, { { (size_t)from.part[0], (size_t)from.part[1] }, { (size_t)from.part[2], (size_t)from.part[3] }' 'from.connection, from.count, { { (size_t)from.part[0], (size_t)from.part[1] }, { (size_t)from.part[0], (size_t)from.part[1] }'
changed host "a link by value: addresses exchanged" '.address[0] << 32 |' '.address[1] << 32 |'
changed host "sessions by value: levels exchanged" 'of[0].level << 8 |' 'of[1].level << 8 |'
changed host "slot, judged: the length for its offset" '.offset = from.offset,' '.offset = from.length,'
changed host "slot, being judged: a field for its neighbour" '.stated = from.stated,' '.stated = from.sum,'
changed host "slot, a piece: the work for the refusal" '.refusal = from.refusal, .work' '.refusal = from.work, .work'
changed host "slot, a piece: its count for its place" '.at = from.at,' '.at = from.count,'
changed host "slot, the goal: the number a byte short" '(kelindap_slot_goal){ (uint8_t)r, (uint32_t)(r >> 32)' '(kelindap_slot_goal){ (uint8_t)r, (uint8_t)(r >> 32)'
changed plain_host "plain reply: outcome and count exchanged" '(kelindap_plain_reply){ (uint8_t)r, (uint8_t)(r >> 8),' '(kelindap_plain_reply){ (uint8_t)(r >> 8), (uint8_t)r,'
changed plain_host "plain reply: the first session twice" '{ (uint8_t)(r >> 32), (uint8_t)(r >> 40) }' '{ (uint8_t)(r >> 16), (uint8_t)(r >> 24) }'
changed plain_host "plain sessions by value: levels exchanged" 'of[0].level << 8 |' 'of[1].level << 8 |'
changed tool "written: outcome and count exchanged" '(kelindap_written){ low(r), high(r) }' '(kelindap_written){ high(r), low(r) }'
changed tool "framed: the count a byte short" '{ (uint16_t)r,' '{ low(r),'
changed tool "framed: the count for the outcome" 'low(r >> 16) }; }' 'low(r >> 8) }; }'
changed tool "point: type and value exchanged" 'low(last), high(last)' 'high(last), low(last)'
changed tool "point: bits and hundredths exchanged" 'point.bits << 32 | (uint32_t)point.hundredths' '(uint32_t)point.hundredths << 32 | point.bits'
changed tool "PDU: a field for its neighbour" '.s = from.s,' '.s = from.maximum,'
changed tool "PDU: a field left out" '.level = from.level,' ''
changed tool "PDU: the serial number a byte short" '.serial = from.serial,' '.serial = from.serial & 0xFFFFFFFFFF,'
changed tool "PDU: the data a byte on" '.data_offset = from.data_offset,' '.data_offset = from.data_offset + 1,'
changed tool "frame: source and destination exchanged" '.source = from.source, .destination = from.destination,' '.source = from.destination, .destination = from.source,'
changed tool "frame: the TPDU a byte short" '.tpdu_length = from.tpdu_length,' '.tpdu_length = from.tpdu_length - 1,'
[ "$(cat "$work"/*.faults | wc -l)" -ge 60 ] || fail "only $(cat "$work"/*.faults | wc -l) faults are planted"

planted=0 missed=0
for name in host tool plain_host; do
    libraries=()
    for library in host tool plain_host; do
        [ "$library" = "$name" ] && libraries+=("$work/faulty.a") || libraries+=("$work/lib$library.a")
    done
    while IFS=$'\t' read -r what at text; do
        LINE=$text awk -v at="$at" 'NR == at { print ENVIRON["LINE"]; next } { print }' "$work/$name.c" > "$work/faulty.c"
        mk/bin/native "$processor" "$name" "$work/faulty.a" "$work/faulty.c" 2> "$work/err" || { cat "$work/err"; fail "$what: does not compile"; }
        planted=$((planted + 1))
        case $what in slot*) play=slots_play ;; *) play=plays ;; esac
        ! "$play" "${libraries[@]}" || { echo "shims: $processor: not found: $what" && missed=$((missed + 1)); }
    done < "$work/$name.faults"
done
echo "shims: $processor: $((planted - missed)) of $planted planted faults found"
[ "$missed" = 0 ]
