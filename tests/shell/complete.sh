#!/usr/bin/env bash
# tests/shell/complete.sh BIN COMPLETIONS: the completions for bash, of the programs in the folder BIN as they are installed, asked
# as bash asks them; every command and option of each synopsis is offered, and nothing else. At last by the tabulator key itself.
set -euo pipefail
bin=$(realpath "$1") file=$(realpath "$2")
fail() { echo "complete: $1"; exit 1; }
work=$(mktemp -d)
trap 'rm -rf "$work"' EXIT
cd "$work"
PATH=$bin:$PATH
# shellcheck source=/dev/null
. "$file"
: > tank.sheet
: > 'a b.trace'
mkdir dumps

# what is offered for these words, of which the last is being typed; in order, on a line
offered() {
    COMP_WORDS=("$@") COMP_CWORD=$(($# - 1)) COMPREPLY=()
    _kelindap "$1" "${COMP_WORDS[COMP_CWORD]}" "${COMP_WORDS[COMP_CWORD - 1]}"
    printf '%s\n' "${COMPREPLY[@]}" | LC_ALL=C sort -u | paste -sd ' '
}
count=0
is() { # EXPECTED WORDS..
    local got
    got=$(offered "${@:2}")
    [ "$got" = "$1" ] || fail "${*:2}: offered \"$got\", not \"$1\""
    count=$((count + 1))
}
for program in sheet trace unit tool; do
    complete -p "kelindap-$program" | grep -q -- '-F _kelindap ' || fail "nothing is said for kelindap-$program"
done

is '--help --version check convert diff make show slots survey versions' kelindap-sheet ''
is 'check convert' kelindap-sheet c
is check kelindap-sheet ch
is '--help --version' kelindap-sheet --
is '' kelindap-sheet flash
is '--help --json --keys' kelindap-sheet show -
is '--help --keys' kelindap-sheet show --json -
is --keys kelindap-sheet show --k
is tank.sheet kelindap-sheet show t
is slots kelindap-sheet sl
is tank.sheet kelindap-sheet slots t
is '--help --json' kelindap-sheet slots -
is tank.sheet kelindap-sheet show --json t
is tank.sheet kelindap-sheet diff a t
is diff kelindap-sheet versions di
is 'a b.trace diff dumps tank.sheet' kelindap-sheet versions ''
is --help kelindap-sheet versions diff -
is dumps kelindap-sheet survey ''
is '--bound --csv --height --help --json --reference' kelindap-sheet survey dumps -
is '--bound --csv --height --help --json' kelindap-sheet survey dumps --reference tank.sheet -
is tank.sheet kelindap-sheet survey dumps --reference t
is '--help --version explain make play show' kelindap-trace ''
is 'ets hex knxtool text' kelindap-trace make ''
is knxtool kelindap-trace make k
is tank.sheet kelindap-trace make hex t
is '--force --help --json --reverse --sheet' kelindap-trace make hex a b -
is 'a b.trace' kelindap-trace show a
is '--all --final --help --json' kelindap-trace explain -
is '--help --lines --version --words' kelindap-unit ''
is --words kelindap-unit --w
is '--help --version address authorize describe descriptor group key memory read readout restart scan survey user-memory write' kelindap-tool ''
is 'read readout' kelindap-tool read
is user-memory kelindap-tool us
is 'read' kelindap-tool memory rea
is '--key-file' kelindap-tool write 1.1.5 1/51 1250 --k
is dumps kelindap-tool survey 1.1.5 --into d

# what is offered is what the synopsis has: every command of it, and of each command every option
for program in sheet trace tool; do
    "$bin/kelindap-$program" --help | awk '/^SYNOPSIS$/ { on = 1; next } /^[^ ]/ { on = 0 } on && $2 ~ /^[a-z]/' > forms
    while read -r _ command rest; do
        offered "kelindap-$program" "$command" | grep -qw -- "$command" || fail "$command is not offered"
        second=${rest%% *}
        [[ $second =~ ^[a-z]+$ ]] && words=("$command" "$second") || words=("$command")
        for option in $(grep -o -e '--[a-z]*' <<< "$rest" || true); do
            offered "kelindap-$program" "${words[@]}" "$option" | grep -qw -e "$option" || fail "$command $option is not offered"
            count=$((count + 1))
        done
    done < forms
done

# by the key
if command -v python3 > /dev/null; then
    python3 - "$bin" "$file" << 'END'
import os, pty, select, sys, time
pid, main = pty.fork()
if pid == 0:
    os.environ.update(PATH=sys.argv[1] + ":" + os.environ["PATH"], TERM="dumb", PS1="$ ", HISTFILE="/dev/null")
    os.execvp("bash", ["bash", "--norc", "--noprofile", "-i"])
got = b""
def until(text):
    global got
    end = time.time() + 20
    while text not in got:
        ready, _, _ = select.select([main], [], [], max(0, end - time.time()))
        assert ready, (text, got)
        got += os.read(main, 65536)
until(b"$ ")
os.write(main, b". " + sys.argv[2].encode() + b"; echo read''y\n")
until(b"ready\r\n")
got = b""
os.write(main, b"kelindap-sheet ch\tta\t\n")
until(b"S1: the sheet has 0 bytes")
assert b"kelindap-sheet check tank.sheet" in got, got
os.write(main, b"exit\n")
os.waitpid(pid, 0)
END
    key=", by the key too"
else
    key="; left out: the key itself, for there is no python3"
fi
echo "complete: $count completions$key"
