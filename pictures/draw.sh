#!/usr/bin/env bash
# draw.sh SCRIPT [SVG]: runs ringctl on the script, and draws the run as text and, where a file is named, as SVG. Where
# bin/ringctl is not built, rt try builds ringctl and runs it unproved, in a minute or two.
set -eu
root=$(realpath "$(dirname "$0")/..")
if [ $# -lt 1 ] || [ $# -gt 2 ] || [ -z "$1" ]; then
    echo "usage: make picture SCRIPT=examples/first_election.ring [SVG=bin/first_election.svg]" >&2
    exit 2
fi
if [ -x "$root/bin/ringctl" ]; then
    printed=$("$root/bin/ringctl" < "$1")
else
    printed=$("$root/bench/try.sh" "$1")
fi
printf '%s\n' "$printed" | "$root/pictures/picture.py" "$@"
