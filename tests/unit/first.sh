#!/usr/bin/env bash
# tests/unit/first.sh UNIT SHEET: plays the demonstration through a desk unit that has the first engine alone, as make run and make look
# do, and holds what a person then reads to the expected text; the other engine it refuses.
set -euo pipefail
unit=$1 sheet=$2
cd "$(dirname "$0")/../.."
scripts/demo.sh "$unit" "$sheet" scripts/demo.txt | diff tests/unit/demo.expected - ||
    { echo "$unit: the demonstration is another" >&2; exit 1; }
said=$(printf 'engine plain\nengine first\n' | "$unit" || true)
[ "$said" = $'ERR this unit has the first engine alone\nengine first' ] || { echo "$unit: \"engine plain\" is answered by: $said" >&2; exit 1; }
echo "unit: the demonstration by $unit"
