#!/usr/bin/env bash
# All tests: the proofs, must-fail edits, programs and tests of every crate by 'rt ci', and then the checks
# that rt does not make. Its last line is rt's own count; anything that fails makes it end with a status other than 0.
set -euo pipefail
cd "$(dirname "$0")/.."

log=$(mktemp)
trap 'rm -f "$log"' EXIT

rt ci 2>&1 | tee "$log"
verdict=$(tail -n 1 "$log")

# an edit that no longer fits the code shows nothing, and rt ci only counts it
if grep -Eq '^rt: ok.*, [1-9][0-9]* bad' "$log"; then
    echo 'test: a must-fail edit is bad' >&2
    exit 1
fi

tools/build.sh noderun
tools/commands.sh
bench/run.sh compare

printf '%s\n' "$verdict"
