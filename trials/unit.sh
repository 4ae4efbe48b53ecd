#!/bin/bash
# unit.sh [RINGD | PACKAGE.deb]: the units of ringd, bin/ringd where none is named, in a systemd that is booted here.
#
# As root. systemd runs in namespaces of its own: processes, mounts, network and control groups; over a copy of this
# system whose changes are in memory and gone at the end. There `make install` puts what it puts, or dpkg installs the
# package that `make deb` makes, and unit_steps.sh starts and stops the units. It prints a line for each step, and then `steps N faults F`. Status 0 where F is 0 and
# all steps were taken, 1 else, 2 where it can't be tried. Needed are systemd, dbus, unshare and useradd. It takes half
# a minute, and is ended after ten.
set -eu
root=$(realpath "$(dirname "$0")/..")
SECONDS_AT_MOST=600

# tree OVER: a copy of this system at OVER/root, with empty file systems where a boot needs them.
tree() {
    local to=$1/root
    mount --make-rprivate /
    mount -t tmpfs tmpfs "$1"
    mkdir "$1/up" "$1/work" "$to" "$1/told"
    mount -t overlay overlay -o "lowerdir=/,upperdir=$1/up,workdir=$1/work" "$to"
    mount -t proc proc "$to/proc"
    mount -t sysfs sysfs "$to/sys"
    for path in run tmp dev sys/fs/cgroup; do mount -t tmpfs -o mode=755 tmpfs "$to/$path"; done
    mkdir "$to/sys/fs/cgroup/systemd" "$to/sys/fs/cgroup/unified"
    mount -t cgroup2 cgroup2 "$to/sys/fs/cgroup/unified"
    mount -t cgroup -o none,name=systemd cgroup "$to/sys/fs/cgroup/systemd" 2> /dev/null ||
        { umount "$to/sys/fs/cgroup/unified" "$to/sys/fs/cgroup"; mount -t cgroup2 cgroup2 "$to/sys/fs/cgroup"; }
    for path in null zero full random urandom tty; do
        touch "$to/dev/$path"
        mount --bind "/dev/$path" "$to/dev/$path"
    done
    ln -s pts/ptmx "$to/dev/ptmx"
    mkdir "$to/dev/pts" "$to/dev/shm"
    chmod 1777 "$to/tmp"
}

# units ROOT: no unit there is started but those that are tried, and what a boot needs.
units() {
    local system=$1/etc/systemd/system
    rm -rf "$system"
    mkdir -p "$system/multi-user.target.wants"
    for unit in getty.target systemd-{udevd,sysctl,modules-load,udev-trigger,resolved,networkd,timesyncd}.service \
        systemd-tmpfiles-setup-dev.service dev-hugepages.mount sys-kernel-{debug,tracing}.mount \
        sys-fs-fuse-connections.mount prometheus.service prometheus-node-exporter.service; do
        ln -s /dev/null "$system/$unit"
    done
    printf '[Service]\nType=oneshot\nExecStart=/bin/bash -c "/steps.sh > /told 2>&1; sleep 1; systemctl --no-block exit"\n' \
        > "$system/steps.service"
    ln -s ../steps.service "$system/multi-user.target.wants/steps.service"
}

boot() {
    local over=$1 ringd=$2 to=$1/root
    tree "$over"
    units "$to"
    ip link set lo up
    if [[ $ringd == *.deb ]]; then
        # Else all pages of the system are indexed anew.
        rm -f "$to/var/lib/man-db/auto-update"
        DEBIAN_FRONTEND=noninteractive chroot "$to" dpkg --force-unsafe-io -i "$ringd" > "$to/told" 2>&1 || cat "$to/told"
        echo /usr > "$to/prefix"
    else
        make -s -C "$root" install DESTDIR="$to" PREFIX=/usr/local
        install -m 755 "$ringd" "$to/usr/local/bin/ringd"
        cp "$to/usr/local/share/ringd/ringd.toml" "$to/etc/ringd.toml"
        chroot "$to" useradd --system --no-create-home ringd
        echo /usr/local > "$to/prefix"
    fi
    install -m 755 "${STEPS:-$root/trials/unit_steps.sh}" "$to/steps.sh"
    : > "$to/told"
    mkdir "$to/before"
    cd "$to"
    pivot_root . before
    umount -l /before
    exec env -i container=trial PATH=/usr/sbin:/usr/bin:/sbin:/bin /bin/bash -c 'tail -f -n +1 /told --pid=1 2> /dev/null &
        exec /lib/systemd/systemd --system --unit=multi-user.target --show-status=0'
}

if [ "${1:-}" = --boot ]; then boot "$2" "$3"; exit; fi
ringd=$(realpath "${1:-$root/bin/ringd}")
for word in systemctl dbus-daemon unshare useradd pivot_root; do
    command -v "$word" > /dev/null || { echo "unit.sh: $word is not there" >&2; exit 2; }
done
[ "$(id -u)" = 0 ] && { [ -x "$ringd" ] || [[ $ringd == *.deb ]]; } || { echo "unit.sh: root, and a built ringd, are needed" >&2; exit 2; }
over=$(mktemp -d)
# A control group of its own is the root of what the booted one sees.
groups=()
for path in /sys/fs/cgroup/systemd /sys/fs/cgroup/unified /sys/fs/cgroup; do
    if [ -e "$path/cgroup.procs" ]; then groups+=("$path/ringd-unit-$$"); fi
done
trap 'for path in "${groups[@]}"; do find "$path" -depth -type d -exec rmdir {} + 2> /dev/null; done; rmdir "$over"; rm -f "$over.told"' EXIT
mkdir "${groups[@]}"
bash -c 'for path in "${@:4}"; do echo $$ > "$path/cgroup.procs"; done
    exec timeout -s KILL "$1" unshare --cgroup --mount --uts --ipc --net --pid --fork --kill-child "$0" --boot "$2" "$3"' \
    "$root/trials/unit.sh" "$SECONDS_AT_MOST" "$over" "$ringd" "${groups[@]}" < /dev/null 2>&1 | tee "$over.told" || true
grep -q '^steps [0-9]* faults 0$' "$over.told"
