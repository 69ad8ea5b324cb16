#!/usr/bin/env bash
# tests/shell/run.sh: the programs for people as they are installed: the examples of their man pages, completions, and what they
# show at a terminal.
set -euo pipefail
cd "$(dirname "$0")/../.."
bin=$(mktemp -d)
trap 'rm -rf "$bin"' EXIT
for program in sheet trace unit; do ln -s "$PWD/build/$program" "$bin/kelindap-$program"; done
ln -s "$PWD/build/kelindap-tool" "$bin"
command -v python3 > /dev/null || { echo "shell: left out: there is no python3"; exit 0; }
tests/shell/examples.sh "$bin" tools/sheet/kelindap-sheet.txt tools/trace/kelindap-trace.txt hosts/kelindap-unit.txt
tests/shell/complete.sh "$bin" tools/kelindap.bash
python3 tests/shell/terminal.py build/sheet build/trace build/unit
