#!/usr/bin/env bash
# tests/edits/gate.sh LIST LOG LOGS: holds what rt ci printed, LOG, and what the prover said of each edit, LOGS/crate/edit.log
# (tests/edits/try.sh), against LIST. An edit has several changes, each under a line '# change: what must be refused'. LIST has a
# line for each place at which a change must be refused: crate/edit, change, place, and in a word the fact that fails there. A
# place is `fn crate::function`, or a file and the law in it. It counts only if the prover refuses it for a reason of its own,
# and not because of a function that it calls or a law that it cites: so each change is refused as if it were alone.
set -uo pipefail
list=$1 log=$2 logs=$3
bad=0 places=0
complain() { echo "edits: $*"; bad=$((bad + 1)); }
rows() { grep -v -e '^#' -e '^$' "$list"; }

# what the prover said of a function itself: of a file of its proof, or of the goals for which it looked by itself
own_function() { # FUNCTION LOG
    local path=${1#*::} file
    grep -qE "^fn $1: no proof: expected [^;]*; \`search\` did not prove [^;]*$" "$2" && return
    grep -qE "^fn $1: not proved$" "$2" || return
    for file in Answers Invariants Proof; do own_error "proofs/${path//:://}/$file.antt" "" "$2" && return; done
    return 1
}

own_error() { # FILE LAW LOG: any law of the file if LAW is empty
    awk -v file="/$1:" -v law=": error: \`${2:+$2\`:}" '
        index($0, file) && index($0, law) && !/was not admitted|is not in scope|has no (field )?`|that can be named from here/ { found = 1 }
        END { exit !found }' "$3"
}

# each place of the list is refused there
while IFS=$'\t' read -r edit change place fact; do
    places=$((places + 1))
    said=$logs/$edit.log
    if [ "$(tail -n 1 "$said" 2> /dev/null)" != logic=not-proved ]; then
        complain "$edit, $change: was not tried"
        continue
    fi
    case $place in
    'fn '*) own_function "${place#fn }" "$said" ;;
    *) own_error "${place% *}" "${place#* }" "$said" ;;
    esac || complain "$edit, $change: not refused at $place, or only for what stands below it ($fact)"
done < <(rows)

# what was tried is what is listed (tests/edits/list.sh holds the list to the edits themselves)
tried() { sed -n 's|^rt: must-fail \([^:]*\)\.edit: refused, as it must be.*|\1|p' "$log" | sort; }
while IFS= read -r line; do complain "$line"; done < <(diff <(rows | cut -f 1 | sort -u) <(tried) |
    sed -n 's/^</listed, and not tried:/p; s/^>/tried, and not listed:/p')

[ "$bad" -eq 0 ] || exit 1
echo "edits: $(rows | cut -f 1,2 | sort -u | wc -l) changes in $(tried | wc -l) edits, each refused at its own place, $places in all"
