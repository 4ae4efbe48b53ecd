#!/bin/bash
# unit_steps.sh: what is tried of the units, by process 1 of a booted systemd that unit.sh makes. See there.
steps=0 faults=0
# Where all of it was installed.
prefix=$(< /prefix)

# step TEXT CMD..: a step, which is a fault where the command fails.
step() {
    local text=$1
    shift
    steps=$((steps + 1))
    if "$@" > /tmp/out 2>&1; then
        echo "ok: $text"
    else
        faults=$((faults + 1))
        echo "FAULT: $text: $*"
        tail -n 3 /tmp/out
    fi
}

not() { ! "$@"; }
# is UNIT STATE RESULT: the unit's state and result.
is() { [ "$(systemctl show -P ActiveState "$1") $(systemctl show -P Result "$1")" = "$2 $3" ]; }
# ask PORT LINE ANSWER: a node's answer to a line.
ask() {
    exec 3<> "/dev/tcp/127.0.0.1/$1" && echo "$2" >&3 && read -r -t 10 answer <&3 && exec 3>&- && echo "$answer" &&
        [ "$answer" = "$3" ]
}
# tells PORT PATH TEXT: a page of the status port has this.
tells() {
    exec 3<> "/dev/tcp/127.0.0.1/$1" && printf 'GET %s HTTP/1.1\r\n\r\n' "$2" >&3 && grep -q "$3" <&3
}
# shortly CMD..: it holds within 15 seconds.
shortly() {
    for _ in {1..150}; do
        if "$@" 2> /dev/null; then return 0; fi
        sleep 0.1
    done
    return 1
}
is_none_failed() { [ -z "$(systemctl list-units --failed -q --no-legend)" ]; }
is_killed() { systemctl kill -s KILL --kill-who=main "$1"; }
logs_words() { journalctl -q -u ringd -p err..err -o cat | grep -q "^error: "; }
# logs PRIORITY TEXT: the journal has this line of the unit at that priority.
logs() { journalctl -q -u ringd -p "$1..$1" -o cat | grep -qx "ringd: $2"; }
# as_ringd FOLDER WORD..
as_ringd() { (cd "$1" && setpriv --reuid ringd --regid ringd --clear-groups "$prefix/bin/ringd" "${@:2}"); }

units=$prefix/lib/systemd/system

step "both units are as systemd wants them" systemd-analyze verify --recursive-errors=no $units/ringd.service $units/ringd@red.service
step "a start with no nodes fails" not systemctl start ringd
systemctl stop ringd
[ "$prefix" = /usr ] || install -d -o ringd -m 700 /var/lib/ringd /var/lib/ringd/state
step "the nodes are made" as_ringd /var/lib/ringd --settings /etc/ringd.toml --make
step "a start ends well" systemctl start ringd
step "the commit that it was built of is there" grep -Exq '[0-9a-f]{40}(-dirty)?|unknown' "$prefix/share/ringd/commit"
step "it serves right behind the start" ask 7101 "stand red 5 10" stood
step "and tells of itself" tells 7100 /live live
step "files may be of any size" grep -q "^Max file size *unlimited" "/proc/$(systemctl show -P MainPID ringd)/limits"
step "its calls are filtered" grep -q "^Seccomp:.*2" "/proc/$(systemctl show -P MainPID ringd)/status"
begin=$(date +%s%N)
step "a stop ends well" systemctl stop ringd
step "within two seconds" [ $((($(date +%s%N) - begin) / 1000000)) -lt 2000 ]
step "and the unit is inactive" is ringd inactive success
step "and nothing is degraded" is_none_failed
step "what was answered is there behind the next start" systemctl start ringd
step "as it is told" ask 7101 "stand red 5 11" "no 3 already 10"
step "killed" is_killed ringd
step "it is started again" shortly tells 7100 /live live
step "as each kill is" shortly is ringd active success
systemctl stop ringd

cp /var/lib/ringd/state/node-2.crj /tmp/whole
printf 'xxxxxxxxxxxxxxxxxxxxxxxxxxxxxxxxxxxxxxxxxxxxxxxxxxxxxxxxxxxxxxxxxxxxxxxxxxxxxx' |
    dd of=/var/lib/ringd/state/node-2.crj conv=notrunc status=none
step "a start of a damaged folder fails" not systemctl start ringd
step "and the unit tries on" not is ringd active success
step "the journal has why, as an error" shortly logs err "node 2: unformatted"
step "and the version and the layout of a start that served, for information" shortly logs info "version .*, layout [0-9]*"
systemctl stop ringd
cat /tmp/whole > /var/lib/ringd/state/node-2.crj
step "with the file put back it starts" systemctl start ringd
systemctl stop ringd

echo 'RINGD_WORDS="--doors 2 --idle 30 --status 7200"' > /etc/default/ringd
step "words come from a file" systemctl start ringd
step "and are obeyed" tells 7200 /status '"doors":2'
systemctl stop ringd
echo 'RINGD_WORDS="--doors 99 --status 7200"' > /etc/default/ringd
step "wrong words fail" not systemctl start ringd
step "and are not tried again" is ringd failed exit-code
step "the journal has them as an error" shortly logs_words
systemctl reset-failed ringd
echo 'RINGD_WORDS="--doors 2"' > /etc/default/ringd
step "without a status port nothing is waited for" systemctl start ringd
step "and it serves" shortly ask 7101 "who red 4" none
systemctl stop ringd

mkdir /etc/ringd
port=7300
for name in red blue; do
    install -d -o ringd -m 700 /var/lib/ringd-$name /var/lib/ringd-$name/state
    sed "s/^port = .*/port = $((port + 1))/" "$prefix/share/ringd/ringd.toml" > /etc/ringd/$name.toml
    echo "RINGD_WORDS=\"--doors 4 --idle 60 --status $port\"" > /etc/default/ringd-$name
    step "the nodes of $name are made" as_ringd /var/lib/ringd-$name --settings /etc/ringd/$name.toml --make
    port=$((port + 100))
done
step "two tenants start" systemctl start ringd@red ringd@blue
step "one is told nothing" ask 7301 "stand red 5 10" stood
step "of the other" ask 7401 "stand red 5 11" stood
step "both stop" systemctl stop ringd@red ringd@blue
step "well" is ringd@red inactive success
step "a tenant that has no words is refused" not systemctl start ringd@green

if [ "$prefix" = /usr ]; then
    step "the command is there" cinoweta --version
    step "its page" man -w cinoweta
    step "and that of the server" man -w ringd
    step "programs find the package" /usr/bin/python3 -c "import cinoweta"
    for path in ringd/alerts.yml ringd/grafana.json bash-completion/completions/ringd bash-completion/completions/cinoweta; do
        step "$path is there" [ -s /usr/share/$path ]
    done
    step "the package is removed" dpkg --force-unsafe-io -r ringd
    step "and the ring stays" [ -e /var/lib/ringd/state/ring.made ]
fi
echo "steps $steps faults $faults"
