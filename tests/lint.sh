#!/usr/bin/env bash
# tests/lint.sh: formatting and lints of the Rust programs, and of the shell scripts, by those tools that are installed.
set -euo pipefail
cd "$(dirname "$0")/.."
done=()

if cargo fmt --version > /dev/null 2>&1; then
    cargo fmt --all --check
    done+=("cargo fmt")
fi
# the benchmark needs an archive to be linked with, so it is not among these; what the trace tool and the tool on the bus need is not linked for it
if cargo clippy --version > /dev/null 2>&1; then
    cargo clippy --release --quiet --all-targets -- -D warnings
    cargo clippy --release --quiet --all-targets -p trace -p tool -- -D warnings
    done+=("clippy")
fi
if command -v shellcheck > /dev/null; then
    mapfile -t scripts < <(grep -rlE '^#!/usr/bin/env bash' .ci mk scripts tests)
    shellcheck -S warning "${scripts[@]}"
    done+=("shellcheck")
fi
echo "lint: ${done[*]:-nothing is installed}"
