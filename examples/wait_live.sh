#!/bin/bash
# wait_live.sh [WORD..]: waits until the ringd of process MAINPID answers at its status port, and fails where that ends
# before. The WORDs are those that it was started with. Without --status among them nothing is waited for.
# A unit has it as ExecStartPost, so that `systemctl start` is done once the ring serves, and fails where it is refused.
set -u
host=127.0.0.1 port=''
while [ $# -gt 0 ]; do
    case $1 in
        --status) port=${2:-} ;;
        --status=*) port=${1#*=} ;;
        --listen) host=${2:-} ;;
        --listen=*) host=${1#*=} ;;
    esac
    shift
done
case $host in
    0.0.0.0 | :: | \[::\]) host=127.0.0.1 ;;
    \[*\]) host=${host:1:-1} ;;
esac

# lives: whether /live is answered with 200 within a second.
lives() {
    timeout 1 bash -c 'exec 3<> "/dev/tcp/$0/$1" && printf "GET /live HTTP/1.1\r\nHost: %s\r\n\r\n" "$0" >&3 &&
        read -r line <&3 && [[ $line == "HTTP/1.1 200 "* ]]' "$host" "$port" 2> /dev/null
}

if [ -z "$port" ]; then
    echo "wait_live.sh: no --status PORT: not waited for" >&2
    exit 0
fi
until lives; do
    # A process that ended and was not waited for has no command line.
    if [ -z "$(tr -d '\0' 2> /dev/null < "/proc/$MAINPID/cmdline")" ]; then
        echo "wait_live.sh: process $MAINPID ended before it served" >&2
        exit 1
    fi
    sleep 0.05
done
# Another ring may answer at the port, which then was refused to this one.
kill -0 "$MAINPID" 2> /dev/null || exit 1
