#!/usr/bin/env bash
# tests/page/run.sh PAGE SHEET TRACE OUT: the page's script by its types, where tsc is installed; and the page in a browser (tests/page/page.js),
# where node and a browser are. What is not there is said and left out.
set -euo pipefail
page=$1 sheet=$2 trace=$3 out=$4
cd "$(dirname "$0")/../.."
if command -v tsc > /dev/null; then
    tsc -p hosts/page
    echo "page: types checked, $(cat hosts/page/*.js | wc -l) lines of script"
else
    echo "page: types are not checked: there is no tsc here (Debian: node-typescript)"
fi
command -v node > /dev/null || { echo "page: left out: there is no node here (Debian: nodejs)"; exit 0; }
browser=
for name in chromium-headless-shell chromium chromium-browser google-chrome; do
    [ -n "$browser" ] || browser=$(command -v "$name" || true)
done
[ -n "$browser" ] || { echo "page: left out: there is no browser here (Debian: chromium-headless-shell)"; exit 0; }
node tests/page/page.js "$browser" "$page" "$sheet" "$trace" "$out"
