#!/usr/bin/env bash
# scripts/trace_play.sh [PROGRAM] < INPUT: trace_play, with an exit status that tells: 0 if the trace was played, 1 if sheet or trace is
# refused. The proved program says so in its last line, and itself ends with 0 in every case.
set -euo pipefail
here=$(dirname "$0")
program=${1:-$here/../build/bin/trace_play}
"$program" | awk '{ print } / refused: / { bad = 1 } END { exit bad || NR == 0 }'
