#!/usr/bin/env bash
# try.sh SCRIPT: builds ringctl without proving it, runs it on the script, and prints what it prints: its own standard error too, and no line
# of the toolchain's. Where it was not built, or did not end, it prints what the toolchain said.
set -eu
if [ $# -ne 1 ]; then
    echo "usage: bench/try.sh SCRIPT, as bench/try.sh examples/first_election.ring" >&2
    exit 2
fi
script=$(realpath "$1")
cd "$(dirname "$0")/../crates/ringctl"
log=$(mktemp)
trap 'rm -f "$log"' EXIT
status=0
rt try < "$script" 2> "$log" || status=$?
# The last line of a run that ended says so, behind a line for each run.
if tail -n 1 "$log" | grep -q '^run=ended '; then
    sed -E '/^(checked|interpreter): ended /d; $d' "$log" >&2
else
    cat "$log" >&2
fi
exit "$status"
