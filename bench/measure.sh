#!/usr/bin/env bash
# measure.sh RINGCTL: times the program on works of bench/script.awk and on more of each, the best of fifteen runs, and prints the times,
# their ratios and what was printed. It asserts nothing.
set -eu
ringctl=$(realpath "$1")
cd "$(dirname "$0")"
room=$(mktemp -d)
trap 'rm -rf "$room"' EXIT

# best WORK COUNT: sets `least` to the nanoseconds of the fastest of fifteen runs of so much work; what it prints is left in $room/out.
# Fails where a run does.
best() {
    local begin end
    least=0
    awk -v work="$1" -v count="$2" -f script.awk > "$room/script.ring"
    for _ in 1 2 3 4 5 6 7 8 9 10 11 12 13 14 15; do
        begin=$(date +%s%N)
        "$ringctl" < "$room/script.ring" > "$room/out"
        end=$(date +%s%N)
        if [ "$least" -eq 0 ] || [ $((end - begin)) -lt "$least" ]; then least=$((end - begin)); fi
    done
}

# grows TEXT WORK LESS MORE: prints how long more of the work takes, without a start of it, and how many times as long that is as less.
grows() {
    local none less more
    best "$2" 0; none=$least
    best "$2" "$3"; less=$((least - none))
    best "$2" "$4"; more=$((least - none))
    awk -v text="$1" -v count="$4" -v times="$(($4 / $3))" -v less="$less" -v more="$more" \
        'BEGIN { printf "%d %s: %.1f ms; %d times as much: %.1f times as long\n", count, text, more / 1e6, times, more / less }'
}

# each TEXT WORK COUNT: prints the time of one of so many.
each() {
    local none
    best "$2" 0; none=$least
    best "$2" "$3"
    awk -v text="$1" -v none="$none" -v all="$least" -v count="$3" 'BEGIN { printf "%s: %.3f ms\n", text, (all - none) / count / 1e6 }'
}

grows "lines of a script" mixed 29000 58000
echo "of these $(grep -c ': stood' "$room/out") stood, $(grep -c ': taken' "$room/out") were taken, $(grep -c 'no ' "$room/out") refused"
grows "elections" elect 1000 3000
each "an audit of 3,000 elections" audit 20
each "a node of 3,000 elections opened again" recover 100
each "a checkpoint of such a node" checkpoint 100
