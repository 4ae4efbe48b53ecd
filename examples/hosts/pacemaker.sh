#!/bin/sh
# pacemaker.sh: a ring of ringd on two hosts, by Pacemaker, with its folder on DRBD and an address that moves along. An
# example: names, addresses and the fence are this site's. It needs the resource `ring` of DRBD in protocol C, and on
# both hosts the unit ringd, which Pacemaker alone starts (systemctl disable ringd).
set -eu
# Without a fence nothing below is safe.
pcs stonith create fence-red fence_ipmilan ip=10.0.0.11 username=fence password_script=/etc/fence/red pcmk_host_list=red
pcs stonith create fence-blue fence_ipmilan ip=10.0.0.12 username=fence password_script=/etc/fence/blue pcmk_host_list=blue
pcs property set stonith-enabled=true no-quorum-policy=stop

pcs resource create ring-disk ocf:linbit:drbd drbd_resource=ring \
    promotable promoted-max=1 promoted-node-max=1 clone-max=2 clone-node-max=1 notify=true
pcs resource create ring-mount ocf:heartbeat:Filesystem device=/dev/drbd/by-res/ring/0 directory=/var/lib/ringd fstype=ext4
pcs resource create ring-address ocf:heartbeat:IPaddr2 ip=10.0.0.10 cidr_netmask=24
# Its start is done once the ring serves, and fails where a start is refused.
pcs resource create ring systemd:ringd op start timeout=120 op stop timeout=30 op monitor interval=10
pcs resource group add ring-group ring-mount ring-address ring
pcs constraint colocation add ring-group with Promoted ring-disk-clone INFINITY
pcs constraint order promote ring-disk-clone then start ring-group
