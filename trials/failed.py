#!/usr/bin/env python3
"""failed.py [--ringd PATH] [--messages N]

The disk of node 2 of a ring fails, and node 1 goes on to send it messages, N at least: first those of all Stands that nodes 1 and 3 may
have, and then, since none of them is credited, 1,024 of them again and again, each 6.4 seconds in the end. Node 2 takes none of them and
keeps none: at each look no message has waited there for a second, and behind the last Stand the memory of ringd stands still, but for a
tenth and a MiB.

  --ringd PATH     the server, `bin/ringd` by default. One that `rt try` built keeps for a while what is freed, and seems to grow.
  --messages N     4,000 to 1,000,000, 100,000 by default, which takes some twelve minutes.

Status 0 where it is so, 1 where it is not, 2 where a word is wrong."""

import argparse
import os
import shutil
import socket
import subprocess
import sys
import tempfile
import time

from hangs import HOST, NODE, get, value
from refusing import NODES, Refusal, Refuser, exchange, refuser_in, serving
from short import Failed, free_ports

CAPACITY = 1 << 20
# A node has so many Stands at most.
STANDS = 1_024
# So many messages are sent again at once, each so many seconds at most: 6.4, and half a second until the inbox looks.
AGAIN, EACH = 1_024, 7.0
# Messages wait no longer at a node, in seconds.
PROMPT = 1.0
SLACK = 1_024


def memory(process: int) -> int:
    """What the process has in memory, in KiB."""
    with open(f"/proc/{process}/status", encoding="ascii") as file:
        return next(int(line.split()[1]) for line in file if line.startswith("VmRSS:"))


def fail(refuser: Refuser, port: int) -> None:
    """The next sync is refused, which is that of a Stand at node 2: its device has failed for good then."""
    refuser.order(Refusal("fdatasync", 1))
    with socket.create_connection((HOST, port + NODE - 1), 10) as session:
        if not (told := exchange(session, "stand blue 1 1")).startswith("no 9 "):
            raise Failed(f"where its disk fails node {NODE} tells {told!r}")


def waits(status: int) -> int:
    """How many messages wait at node 2, where some do for a second."""
    until = time.monotonic() + PROMPT
    while (count := value(get(status, "/metrics")[1], "cinoweta_letters_waiting")) and time.monotonic() < until:
        time.sleep(0.02)
    return count


def look(status: int, done: str) -> None:
    """Refuses that node 2 keeps messages."""
    if count := waits(status):
        raise Failed(f"behind {done} {count} messages wait at node {NODE}")


def fill(port: int, status: int) -> int:
    """Stands at nodes 1 and 3 for as many terms as they take. How many they took: of each comes a message to node 2."""
    stood = 0
    for node, group in ((1, "red"), (NODES, "green")):
        with socket.create_connection((HOST, port + node - 1), 60) as session:
            for term in range(1, STANDS + 1):
                if (told := exchange(session, f"stand {group} {term} 1")) != "stood":
                    raise Failed(f"node {node} answers Stand {term} with {told!r}")
                stood += 1
        look(status, f"{stood} Stands")
    return stood


def send(ringd: str, folder: str, messages: int) -> None:
    """A ring of which node 2 fails, and so many messages to it."""
    refuser = refuser_in(folder)
    port = free_ports(NODES + 1)
    with serving(ringd, folder, f"port = {port}\ncapacity = {CAPACITY}\n", ["--status", str(port + NODES)],
                 refuser.environment(Refusal("fdatasync")), subprocess.DEVNULL) as process:
        fail(refuser, port)
        stood = fill(port, port + NODES)
        begun, before = time.monotonic(), memory(process.pid)
        while (sent := stood + AGAIN * int((time.monotonic() - begun) / EACH)) < messages:
            time.sleep(1)
            look(port + NODES, f"some {sent} messages")
        after = memory(process.pid)
        if after > before + before // 10 + SLACK:
            raise Failed(f"behind {stood} messages it had {before} KiB in memory, and behind {sent} {after}")
    print(f"messages {sent} of {stood} Stands, memory {before} KiB behind the Stands, {after} KiB in the end")


def main() -> int:
    words = argparse.ArgumentParser(usage=__doc__)
    words.add_argument("--ringd", default="bin/ringd")
    words.add_argument("--messages", type=int, default=100_000)
    said = words.parse_args()
    if not os.access(said.ringd, os.X_OK) or not 4_000 <= said.messages <= 1_000_000:
        print("failed.py: ringd is not there, or the number is below 4,000 or above 1,000,000", file=sys.stderr)
        return 2
    folder = tempfile.mkdtemp(prefix="failed.")
    try:
        send(said.ringd, folder, said.messages)
    except (Failed, OSError) as fault:
        print(f"failed.py: {fault}", file=sys.stderr)
        return 1
    finally:
        shutil.rmtree(folder, ignore_errors=True)
    return 0


if __name__ == "__main__":
    sys.exit(main())
