#!/usr/bin/env bash
# tests/unit/words.sh UNIT SHEET [REQUESTS]: the desk unit in words. A dialogue word for word; and over random requests what it
# says has changed, which must be what the sheet tool tells of the sheet before and after, and its outcome and answer, which must
# be those of the line language. 600 requests, or as many as are asked for.
set -euo pipefail
unit=$(realpath "$1") sheet=$(realpath "$2") requests=${3:-600}
cd "$(dirname "$0")"
work=$(mktemp -d)
trap 'rm -rf "$work"' EXIT
fail() { echo "words: $1"; exit 1; }

for script in words/*.in; do
    "$unit" --words < "$script" > "$work/said" || fail "$script ends with status $?"
    diff -u "${script%.in}.out" "$work/said" || fail "$script is told in other words"
done
# every phrase has its place in the help, every term there is one
sed -n '/} phrases\[\] = {/,/^};/s/^    { "\([a-z]*\)", "*\([a-zNUL]*\)"*, .*/\1 \2/p' ../../hosts/unit_words.h | sed 's/ NULL//' |
    grep -vx -e request -e exit | sort -u > "$work/phrases"
sed -n '/^WORDS$/,/^EXAMPLES$/s/^    \([a-z]*\( [a-z][a-z]*\)\{0,1\}\).*/\1/p' ../../hosts/kelindap-unit.txt |
    sed -e 's/^\(button\|store\|point\|session\) .*/\1/' | sort -u > "$work/terms"
while read -r phrase; do grep -qx "$phrase" "$work/terms" || fail "the help has no \"$phrase\""; done < "$work/phrases"

command -v python3 > /dev/null || { echo "words: $(find words -name '*.in' | wc -l) dialogue; left out: random requests, for there is no python3"; exit 0; }
python3 - "$unit" "$sheet" "$requests" "$work" << 'END'
import random, re, subprocess, sys
unit, sheet, requests, work = sys.argv[1], sys.argv[2], int(sys.argv[3]), sys.argv[4]
r = random.Random(20261116)
hexes = lambda b: bytes(b).hex()
def some(n): return [r.randrange(256) for _ in range(n)]
def request():
    two = lambda n: [n >> 8, n & 255]
    kind = r.randrange(11)
    if kind == 0: return 0, 0x801, [0, 0x80] + some(1)
    if kind == 1: return 3, 0, [3, 0xD7, 1, 51, 0x10 | r.randrange(2) << 5, r.randrange(4)] + some(r.choice([2, 4]))
    if kind == 2: return 3, 0, [3, 0xD7, 1, 51, 0x10, 0, 0, 0]
    if kind == 3:
        n = r.randrange(1, 5); return 3, 0, [2, 0x80 | n] + two(0x100 + r.randrange(4)) + some(n)
    if kind == 4: return 3, 0, [3, 0xD0, 2] + two(0x100 + r.randrange(3)) + some(4)
    if kind == 5:
        n = r.randrange(1, 12); return 3, 0, [2, 0xC2, n] + two(0x100 + r.randrange(12)) + some(n)
    if kind == 6: return 3, 0, [3, 0xD1, 0] + [r.choice([0x11, 0x22, 0xFF, 0x33])] * 4
    if kind == 7: return 3, 0, [3, 0xD3, r.randrange(4)] + [r.randrange(256)] * 4
    if kind == 8: return 1, 0, [0, 0xC0] + some(2)
    if kind == 9: return 3, 0, [3, 0x80]
    return 2, 0, [3, 0xD5, 1, 51, 0x10, 1]
pump = "".join(re.findall(r"0x(..)", open("../../hosts/pump_sheet.inc").read())).lower()
lines = ["sheet " + pump]
while len(lines) < requests:
    if r.randrange(4) == 0:
        lines.append(r.choice(["connect 0", "connect 1", "button on", "button off", "disconnect 1"]))
    lines.append("session %d 1 %d" % (r.randrange(2), r.choice([0, 0, 1, 2, 3])))
    mode, group, apdu = request()
    lines.append("request %d %d %s %s %d" % (mode, group, hexes(apdu), "00" * 16, r.randrange(2)))
def run(*words):  # its own complaint is shown
    return subprocess.run([unit, *words], input="\n".join(lines) + "\n", stdout=subprocess.PIPE, text=True, check=True).stdout
answers = run("--lines").splitlines()
# an answer in words per command: each ends with its lines of what changed
told, at, said = [], 0, run("--words").splitlines()
for line in lines:
    if not line.startswith(("request", "connect", "disconnect", "button")):
        told.append([said[at]]); at += 1; continue
    end = at
    while not said[end].startswith("  changed"): end += 1
    while end < len(said) and said[end].startswith("  changed"): end += 1
    told.append(said[at:end]); at = end
assert at == len(said) and len(told) == len(answers) == len(lines), (at, len(said), len(told), len(answers))
old, levels, changes, compared = pump, ["0 3", "0 3"], 0, 0
def diff(a, b):
    for name, bytes_ in (("old", a), ("new", b)): open(work + "/" + name, "wb").write(bytes.fromhex(bytes_))
    return subprocess.run([sheet, "diff", work + "/old", work + "/new"], capture_output=True, text=True).stdout.splitlines()
state = lambda s: "closed" if s[0] == "0" else "level " + s[2:]
for line, answer, words in zip(lines, answers, told):
    a = answer.split()
    if line.startswith("session"):
        levels[int(a[1])] = a[2] + " " + a[3]
    if not line.startswith(("request", "connect", "disconnect", "button")): continue
    now, new = [a[1] + " " + a[2], a[3] + " " + a[4]], a[7]
    wanted = diff(old, new) if old != new else []
    wanted += ["connection %d: %s → %s" % (c, state(levels[c]), state(now[c])) for c in (0, 1) if state(levels[c]) != state(now[c])]
    changes += len(wanted)
    got = [w[11:] for w in words if w.startswith("  changed")]
    assert got == (wanted or ["nothing"]), (line, got, wanted)
    outcome = [w for w in words if w.startswith("  outcome")]
    assert len(outcome) == 1 and re.search(r"\((\d+)\)", outcome[0]).group(1) == a[0], (line, outcome, a[0])
    assert (a[0] in ("0", "1")) == ("carried out" in outcome[0]), outcome
    assert a[0] in ("0", "1") or re.search(r"\(\d+\): ", outcome[0]), outcome
    if line.startswith("request"):
        none = "  answer   none" in words
        assert none == (a[5] == "0"), (line, words)
    old, levels, compared = new, now, compared + 1
assert changes > compared / 8, (changes, compared)
# any words in any order, on sheets that break rules too: it goes on to the end
vocabulary = ("read write describe respond property memory user group address serial descriptor key bits index authorize restart send raw "
    "request connect disconnect button on off sessions show sheet open convert store of save versions restore remove trace play point heard "
    "help requests session 0 1 2 3 15 16 255 4095 65535 65536 99999999999999999999 1/51 1/ /1 1/0/1 31/7/255 32/0/0 1.1.5 15.15.255 1.1 0100h "
    "0x100 0xh h - 00 0102 22222222 ffffffff 00c501020304 hex from count alone broadcast to property_read object=1 id=51 n=1 s=1 data= data=- "
    "x \\ \" / . words/story.in").split() + [pump, pump[:40], "01" + pump[2:], "00" * 60, "ff" * 60, "0001" + "00" * 30, "11" * 40]
lines = [" ".join(r.choice(vocabulary) for _ in range(r.randrange(1, 8))) for _ in range(60 * requests)]
lines = [line for line in lines if line not in ("quit", "exit")]
lines.append("sheet 01")  # it is there to hear the last one
assert run("--words").endswith("  a sheet of 1 byte: S1, not 32 to 16,384 bytes\n"), "it has ended before the last line"
print("words: %d events in words and in lines, %d changes as the sheet tool tells them" % (compared, changes))
END
