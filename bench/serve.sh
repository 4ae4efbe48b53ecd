#!/usr/bin/env bash
# serve.sh [RINGD [WORD..]]: serves the ring of examples/ring.toml. Its files lie in ring-state/ at the repository's
# root; the folder is made where it is not there. RINGD is a built ringd, or bin/ringd where none is named; it is given
# the WORDs, or those of `words` below where there are none. Where none is named and bin/ringd is not built, rt try
# builds ringd and runs it unproved, for a day at most; what ringd prints is then shown only once it ends, and this
# script says when it serves. ringd runs in this script's process, and rt try below it: a signal that ends this script
# ends ringd. Ends with their status; 2 where RINGD is no program, 1 where rt try would find the first port in use.
set -eu
words=(--always --doors 4 --status 7100)

root=$(realpath "$(dirname "$0")/..")
ringd=$root/bin/ringd
if [ $# -gt 0 ]; then
    if [ ! -f "$1" ] || [ ! -x "$1" ]; then
        echo "usage: bench/serve.sh [RINGD [WORD..]], as bench/serve.sh bin/ringd ${words[*]}; $1 is no program" >&2
        exit 2
    fi
    ringd=$(realpath "$1")
    shift
    if [ $# -gt 0 ]; then words=("$@"); fi
fi
mkdir -p "$root/ring-state"
if [ -x "$ringd" ]; then
    cd "$root"
    exec "$ringd" --settings examples/ring.toml "${words[@]}"
fi

# listens PORT: whether somebody listens there.
listens() {
    (exec 3<> "/dev/tcp/127.0.0.1/$1") 2> /dev/null
}

# tell PORT: says when somebody listens there, unless this script ended before.
tell() {
    until listens "$1"; do
        kill -0 $$ 2> /dev/null || return 0
        sleep 1
    done
    echo "bench/serve.sh: serving from port $1 on" >&2
}

# below PID: the processes that it started, and those that they did.
below() {
    local child
    for child in $(ps -o pid= --ppid "$1"); do
        below "$child"
        echo "$child"
    done
}

# end SIGNAL: ends rt, and what it runs, which is in a session of its own, and then this script by the signal.
end() {
    trap - TERM INT HUP
    kill $(below "$job") "$job" 2> /dev/null || true
    kill -"$1" $$
}

port=$(sed -n 's/^port = //p' "$root/examples/ring.toml")
if listens "$port"; then
    echo "bench/serve.sh: port $port is in use" >&2
    exit 1
fi
echo "bench/serve.sh: bin/ringd is not built; rt try builds ringd, of which nothing is proved then" >&2
tell "$port" &
# The program runs in a folder of rt's own, so the settings that it is given name the folder by its whole path.
settings=$(< "$root/examples/ring.toml")
settings=${settings/'"ring-state"'/"\"$root/ring-state\""}
cd "$root/crates/ringd"
rt try --seconds 86400 -- "${words[@]}" <<< "$settings" &
job=$!
trap 'end TERM' TERM
trap 'end INT' INT
trap 'end HUP' HUP
wait "$job"
