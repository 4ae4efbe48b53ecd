#!/usr/bin/env python3
"""hangs.py [--ringd PATH] [--pause SECONDS]

One sync of a node hangs, from outside: a call of `fdatasync` that begins SECONDS later (20 by default). Meanwhile the status port of the
ring is asked each half second. Before ten seconds are over `/health` says `well`, then that this node hangs, with 503, and `well` again
once the sync is over; `/metrics` tells for how long the device has been busy, and `/leaders` who leads, though the Stand that waits for the
sync holds a door of the node. It is then answered, and its leader is known. Meanwhile the other nodes answer each Stand within a second,
and only what waits for a message of the node that hangs is held up: the leaders of those Stands, which each node knows behind it. Once
each it is told on standard error that the node hangs, and that it goes on: beside the status port, and again in a ring without one.

  --ringd PATH   the server, `bin/ringd` by default.

Status 0 where it is so, 1 where it is not, 2 where a word is wrong."""

import argparse
import http.client
import os
import shutil
import socket
import sys
import tempfile
import time
from typing import NamedTuple

from refusing import NODES, Refusal, Refuser, answer, exchange, refuser_in, serving
from short import Failed, free_ports

HANG = 10
EARLY, LATE = 0.5, 2.0
NODE, HOST = 2, "127.0.0.1"
# Within so many seconds a node answers a Stand while another one hangs.
PROMPT = 1.0
WELL, HANGS = (200, "well\n", 0), (503, f"node {NODE} hangs\nhelp: see the disk\n", 1)


class Seen(NamedTuple):
    """What the status port told, so many seconds behind the question."""
    second: float
    status: int
    health: str
    hangs: int
    writing: int


def get(port: int, target: str) -> tuple[int, str]:
    """How the status port answers."""
    asked = http.client.HTTPConnection("127.0.0.1", port, timeout=3)
    try:
        asked.request("GET", target)
        answer = asked.getresponse()
        return answer.status, answer.read().decode()
    except (OSError, http.client.HTTPException) as fault:
        raise Failed(f"{target} is not answered: {fault!r}") from None
    finally:
        asked.close()


def value(metrics: str, name: str) -> int:
    """That of the node."""
    for line in metrics.splitlines():
        if line.startswith(f'{name}{{node="{NODE}"}} '):
            return int(line.split()[1])
    raise Failed(f"/metrics does not tell {name}")


def look(port: int, begun: float) -> Seen:
    """What is told now."""
    status, health = get(port, "/health")
    metrics = get(port, "/metrics")[1]
    # A door of the node is held by the Stand that waits.
    if get(port, f"/leaders/blue?node={NODE}")[0] != 200:
        raise Failed("it does not tell who leads")
    return Seen(time.monotonic() - begun, status, health, value(metrics, "cinoweta_node_hangs"), value(metrics, "cinoweta_writing_seconds"))


def judge(seen: Seen, pause: float) -> None:
    """Refuses what must not be told at that moment. Around a change both are taken."""
    told = (seen.status, seen.health, seen.hangs)
    if seen.second < HANG - EARLY or seen.second > pause + LATE:
        right = told == WELL
    elif HANG + LATE < seen.second < pause - EARLY:
        right = told == HANGS
    else:
        # /health and /metrics are of two moments
        right = told[:2] in (WELL[:2], HANGS[:2])
    if not right or seen.second < pause - EARLY and abs(seen.writing - seen.second) > LATE:
        raise Failed(f"after {seen.second:.1f} s: {seen}")


class Others:
    """Sessions at the nodes whose disks do not hang, which stand for one term of a group after the other."""

    def __init__(self, port: int, pause: float) -> None:
        self.sessions = {node: socket.create_connection((HOST, port + node - 1), pause + 10) for node in range(1, NODES + 1) if node != NODE}
        self.term = 0
        self.longest = 0.0

    def stand(self) -> None:
        """Each stands for the next term, and is answered at once; that nobody is known to lead is answered too."""
        self.term += 1
        for node, session in self.sessions.items():
            begun = time.monotonic()
            if (told := exchange(session, f"stand green {self.term} {node}")) != "stood":
                raise Failed(f"while node {NODE} hangs node {node} tells {told!r}")
            if (told := exchange(session, f"who green {self.term}")) != "none":
                raise Failed(f"while node {NODE} hangs node {node} tells {told!r} of term {self.term}")
            self.longest = max(self.longest, time.monotonic() - begun)
        if self.longest > PROMPT:
            raise Failed(f"while node {NODE} hangs a Stand elsewhere is answered behind {self.longest:.1f} s")

    def end(self) -> None:
        """Behind it each election comes to its end, and its leader is known at each node."""
        until = time.monotonic() + 2 * LATE
        for term in range(1, self.term + 1):
            for node, session in self.sessions.items():
                while (told := exchange(session, f"who green {term}")) == "none" and time.monotonic() < until:
                    time.sleep(0.01)
                if told != f"leader {NODES} {NODES}":
                    raise Failed(f"behind it node {node} tells {told!r} of term {term}")
        for session in self.sessions.values():
            session.close()


def watch(refuser: Refuser, port: int, status: int, pause: float) -> None:
    """Asks node 2 for a Stand whose sync hangs, and looks at what is told meanwhile."""
    if get(status, "/health") != (200, "well\n"):
        raise Failed("a ring that does nothing is not well")
    with socket.create_connection(("127.0.0.1", port + NODE - 1), pause + 10) as session:
        if exchange(session, "stand blue 1 1") != "stood":
            raise Failed("a ring that does nothing does not elect")
        while exchange(session, "who blue 1") == "none":
            time.sleep(0.01)
        # Behind an election the ring comes to rest.
        time.sleep(1)
        others = Others(port, pause)
        refuser.order(Refusal("fdatasync", 1, pause=pause))
        begun = time.monotonic()
        session.sendall(b"stand red 5 10\n")
        # The sync that hangs is that of this Stand.
        time.sleep(EARLY)
        longest = 0
        while (passed := time.monotonic() - begun) < pause + 2 * LATE:
            seen = look(status, begun)
            judge(seen, pause)
            longest = max(longest, seen.writing)
            if passed < pause - LATE:
                others.stand()
            time.sleep(max(0.0, 0.5 - (time.monotonic() - begun - passed)))
        if (told := answer(session)) != "stood":
            raise Failed(f"the Stand is answered with {told!r}")
        if (told := exchange(session, "who red 5")) != f"leader {NODE} 10":
            raise Failed(f"behind it {told!r} is told")
        others.end()
    print(f"a sync of {pause:.0f} s: told from the tenth second on, the device busy for {longest} s at most; then well, and `stood`")
    print(f"meanwhile {len(others.sessions) * others.term} Stands at the other nodes were answered, within {others.longest:.2f} s, and behind it all had leaders")


def stand(port: int, refuser: Refuser, pause: float) -> None:
    """Asks node 2 for a Stand whose sync hangs, where nobody else is asked."""
    with socket.create_connection(("127.0.0.1", port + NODE - 1), pause + 10) as session:
        refuser.order(Refusal("fdatasync", 1, pause=pause))
        if (told := exchange(session, "stand red 5 10")) != "stood":
            raise Failed(f"the Stand is answered with {told!r}")
    # What is over is told within a second.
    time.sleep(LATE)


def serve(ringd: str, pause: float, with_status: bool) -> None:
    """A ring whose node 2 hangs, with a status port that is asked meanwhile or without one, and what it tells on standard error."""
    folder = tempfile.mkdtemp(prefix="hangs.")
    try:
        refuser = refuser_in(folder)
        port = free_ports(NODES + 1)
        words = ["--doors", "2"] + (["--status", str(port + NODES)] if with_status else [])
        with open(os.path.join(folder, "err"), "w+b") as errors:
            with serving(ringd, folder, f"port = {port}\n", words, refuser.environment(Refusal("fdatasync")), errors):
                if with_status:
                    watch(refuser, port, port + NODES, pause)
                else:
                    stand(port, refuser, pause)
            errors.seek(0)
            told = errors.read().decode("ascii", "replace").splitlines()
        if told != [f"ringd: node {NODE} hangs", f"ringd: node {NODE} goes on"]:
            raise Failed(f"on standard error is told {told}")
    finally:
        shutil.rmtree(folder, ignore_errors=True)
    print(f"{'beside' if with_status else 'without'} a status port it was told once that node {NODE} hangs, and that it goes on")


def main() -> int:
    words = argparse.ArgumentParser(usage=__doc__)
    words.add_argument("--ringd", default="bin/ringd")
    words.add_argument("--pause", type=float, default=20.0)
    said = words.parse_args()
    if not os.access(said.ringd, os.X_OK) or said.pause < HANG + 3:
        print("hangs.py: ringd is not there, or the pause is under 13 seconds", file=sys.stderr)
        return 2
    try:
        for with_status in (True, False):
            serve(said.ringd, said.pause, with_status)
    except (Failed, OSError) as fault:
        print(f"hangs.py: {fault}", file=sys.stderr)
        return 1
    return 0


if __name__ == "__main__":
    sys.exit(main())
