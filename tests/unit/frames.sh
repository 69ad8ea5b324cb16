#!/usr/bin/env bash
# tests/unit/frames.sh UNIT: a host in shell, over the desk unit. Each line of standard input is a frame from the bus. The unit
# says what it is and serves it; whose connection is whose is the unit's to say, and the host has no table of its own but the
# sequence numbers of each connection: connected data that is not the next is not served. Acknowledgements are left out. An
# answer is read once more. A stranger on a connection and a third partner are sent a disconnect, and so is a partner whose
# session a Restart has closed. A line that begins with sheet sets the sheet.
set -euo pipefail
coproc unit { exec "$1"; }
# shellcheck disable=SC2154 # coproc sets it
pid=$unit_PID
room=eeeeeeeeeeeeeeeeeeeeeeeeeeeeeeeeeeeeeeeeeeeeeeeeee
# by the number of the connection: the next sequence number of its partner, and of the host, and whether it was open before
due=(0 0) next=(0 0) was=(0 0)

ask() { # COMMAND: the unit's answer in $reply, its words in $words
    printf '%s\n' "$1" >&"${unit[1]}"
    IFS= read -r -t 20 reply <&"${unit[0]}"
    read -r -a words <<< "$reply"
}

read_back() { # FRAMEHEX: what it means and, if it is data, its PDU
    ask "frame read $1"
    local meaning="${words[*]:9}" tpdu=${words[8]#tpdu=}
    case $meaning in disconnect) echo "  > $1 $meaning" && return ;; esac
    ask "read $tpdu"
    echo "  > $1 $meaning: $reply"
}

send_away() { # ADDRESS: a disconnect to it, from the address that the sheet has
    ask "frame write code=17 c1=176 c2=96 source=$own destination=$1 transport=32 info=- apdu=01 $room"
    read_back "${words[2]:0:2 * words[1]}"
}

while read -r frame; do
    case $frame in
    '' | '#'*) continue ;;
    sheet*)
        ask "$frame"
        echo "sheet $reply"
        continue
        ;;
    esac
    ask "heard $frame"
    echo "< $frame $reply"
    event=${words[1]-} place=${words[2]-} sequence=0
    ask "frame read $frame"
    source=${words[4]-} source=${source#source=} transport=${words[6]-} transport=${transport#transport=}
    if [ "$event" = connected ]; then
        [ $((transport % 16)) = "${due[place]}" ] || { echo "  not the next" && continue; }
        due[place]=$(((due[place] + 1) % 16)) sequence=${next[place]}
    fi
    ask "serve $sequence $frame $room"
    number=${words[0]} count=${words[3]} buffer=${words[4]} address=("${words[@]:5:2}") open=("${words[7]}" "${words[9]}")
    own=$((16#${words[11]:32:4}))
    echo "  number $number, outcome ${words[1]}, connection ${words[2]}, partners ${address[*]}, sessions ${words[*]:7:4}"
    [ "$event" != connect ] || due[place]=0 next[place]=0
    if [ "$count" != 0 ]; then
        read_back "${buffer:0:2 * count}"
        [ "$event" != connected ] || next[place]=$(((next[place] + 1) % 16))
    fi
    case $number in 61 | 62) send_away "$source" ;; esac
    for c in 0 1; do
        [ "${was[c]}" = 0 ] || [ "${open[c]}" = 1 ] || [ "$event" = disconnect ] || send_away "${address[c]}"
    done
    was=("${open[@]}")
done
# shellcheck disable=SC2093,SC1083 # closes the file, and replaces nothing
exec {unit[1]}>&-
wait "$pid"
