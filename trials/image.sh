#!/bin/bash
# image.sh [RINGD]: builds the image of examples/Containerfile with bin/ringd, or what is named, and starts it.
#
# As root. buildah builds it over a Debian 12 that debootstrap fetches, in place of the base of that name. It is started with
# the words, user, folder and environment that the image has, as process 1 of a namespace with mounts of its own: on a volume
# that has no ring, which is refused and left as it is; to make the nodes; to serve, until a TERM ends it; once more, with
# what was answered; and on another volume, which is refused again. It prints a line for each step, and then
# `steps N faults F`. Status 0 where F is 0, 1 else, 2 where it can't be tried. The ports are 7100 to 7103 of this host.
set -u
root=$(realpath "$(dirname "$0")/..")
ringd=$(realpath "${1:-$root/bin/ringd}")
for word in buildah debootstrap unshare chroot curl; do
    command -v "$word" > /dev/null || { echo "image.sh: $word is not there" >&2; exit 2; }
done
[ "$(id -u)" = 0 ] && [ -x "$ringd" ] || { echo "image.sh: root, and a built ringd, are needed" >&2; exit 2; }
folder=$(mktemp -d) served=''
end() {
    [ -z "$served" ] || kill "$served" 2> /dev/null
    build rm --all > /dev/null 2>&1
    rm -rf "$folder"
}
trap end EXIT

build() { buildah --root "$folder/store" --runroot "$folder/run" --storage-driver vfs "$@"; }
# config FIELD: what the image has there, a word a line.
config() { build inspect --type image --format "{{range .OCIv1.Config.$1}}{{println .}}{{end}}" ringd | sed '/^$/d'; }

steps=0 faults=0
step() {
    local text=$1
    shift
    steps=$((steps + 1))
    if "$@" > "$folder/out" 2>&1; then
        echo "ok: $text"
    else
        faults=$((faults + 1))
        echo "FAULT: $text: $*"
        tail -n 5 "$folder/out"
    fi
}

base() {
    debootstrap --variant=minbase bookworm "$folder/base" || return 1
    local container
    container=$(build from scratch) && build add -q "$container" "$folder/base" / &&
        build commit -q "$container" docker.io/library/debian:12-slim && build rm "$container" && rm -rf "$folder/base"
}
image() {
    mkdir "$folder/context" && cp "$ringd" "$folder/context/ringd" &&
        { cat "$ringd.commit" 2> /dev/null || echo unknown; } > "$folder/context/ringd.commit" &&
        build bud --pull-never --isolation chroot -t ringd -f "$root/examples/Containerfile" "$folder/context"
}
# volume NAME: an empty one, that is mounted from now on where the image has it.
volume() {
    mkdir "$folder/$1" && chown "$user" "$folder/$1" && chmod 700 "$folder/$1" && volume=$folder/$1
}
# start WORD..: what a runtime starts.
start() {
    exec unshare --pid --fork --kill-child --mount --mount-proc bash -c '
        mount --bind "$1" "$2/var/lib/ringd/state" && exec env -i "${@:6:$5}" chroot --userspec="$3" "$2" \
        /bin/sh -c "cd \"\$0\" && exec \"\$@\"" "$4" "${@:6+$5}"' bash "$volume" "$at" "$user" "$where" "${#environment[@]}" \
        "${environment[@]}" "${entry[@]}" "$@"
}
# refused: it ends with 1, and the volume is empty.
refused() {
    (start "${words[@]}") > "$folder/told" 2>&1
    [ $? = 1 ] && grep -q ' error ringd: node 1: unformatted$' "$folder/told" && [ -z "$(ls -A "$volume")" ]
}
made() { (start --make) && [ -e "$volume/ring.made" ]; }
serve() {
    (start "${words[@]}") > "$folder/told" 2>&1 &
    served=$!
    for _ in {1..200}; do
        if curl -fs http://127.0.0.1:7100/live; then return 0; fi
        sleep 0.2
    done
    cat "$folder/told"
    return 1
}
ask() {
    exec 3<> "/dev/tcp/127.0.0.1/7101" && echo "$1" >&3 && read -r -t 20 answer <&3 && exec 3>&- && [ "$answer" = "$2" ]
}
# ended: by a TERM to process 1 of it, at once.
ended() {
    local begin=$SECONDS
    kill -TERM "$(cat "/proc/$served/task/$served/children")" && { wait "$served"; [ $? = 143 ]; } && served='' &&
        [ $((SECONDS - begin)) -lt 5 ]
}

step "a base is there" base
step "the image is built" image
user=$(build inspect --type image --format '{{.OCIv1.Config.User}}' ringd)
where=$(build inspect --type image --format '{{.OCIv1.Config.WorkingDir}}' ringd)
mapfile -t entry < <(config Entrypoint)
mapfile -t words < <(config Cmd)
mapfile -t environment < <(config Env)
at=$(build mount "$(build from --pull-never localhost/ringd)")
volume first
step "a volume with no ring is refused" refused
step "the nodes are made" made
step "it serves" serve
step "and answers" ask "stand red 5 10" stood
step "a TERM ends it at once" ended
step "it serves again" serve
step "and holds what it answered" ask "stand red 5 11" "no 3 already 10"
step "a TERM ends it again" ended
volume second
step "another volume, in its place, begins no term anew" refused
echo "steps $steps faults $faults"
[ "$faults" = 0 ]
