#!/usr/bin/env python3
"""Has the candidates of many groups campaign each minute, as the package cinoweta comes, and looks whether the ring goes on.

uses.py [--ringd PATH] [--groups G] [--capacity C] [--minutes M]

PATH is a built ringd, bin/ringd where none is named; G, 1 to 1,000, how many groups there are, with names of 8 letters, 60 by
default; C, 4,096 to 1,048,576, the capacity of each of three nodes, 65,536 by default; M, 1 to 100,000, how long, 60 by
default.

In each minute, in each group one after the other, three candidates campaign for the next term, side by side, each at a node
of its own; who leads retires old terms as the package does by default. Each minute has a line `minute N elections E used U
snapshot S stands T late L`: the groups and terms that have a leader; of all nodes the most bytes and the longest snapshot at
its end, and the most Stands; and by how many seconds the candidates were behind their minute at most.

A fault is whatever a campaign raises, two leaders of one group and term, and a node that is not well at a minute's end. The
last line is `minutes M elections E faults F`. Status 1 where there was a fault, of which the first ten are printed; 2 for other
arguments.
"""
import argparse
import json
import os
import pathlib
import sys
import time
import urllib.request
from concurrent.futures import ThreadPoolExecutor

HERE = pathlib.Path(__file__).resolve().parent
sys.path[:0] = [str(HERE), str(HERE.parent / "clients" / "python")]
import cinoweta
from cinoweta.status import health
from kill import number
from tests import served
from tests.served import Served

NODES = (1, 2, 3)


class Uses:
    """A ring that many groups use."""

    def __init__(self, ring: Served, groups: int) -> None:
        self.ring = ring
        self.groups = [f"grp-{place:04d}" for place in range(groups)]
        self.gone = dict.fromkeys(self.groups, 0)
        self.leaders: dict[str, tuple[int, int, int]] = {}
        self.clients = {node: cinoweta.Ring(ring.first, ring.first + 2, status=ring.status) for node in NODES}
        self.pool = ThreadPoolExecutor(len(NODES))
        self.elections = 0
        self.faults: list[str] = []

    def campaign(self, node: int, group: str) -> None:
        """A candidate campaigns at its node. Of one term all are told one leader."""
        try:
            election = self.clients[node].campaign(group, self.gone[group], node=node)
        except cinoweta.CinowetaError as fault:
            self.faults.append(f"{group} at node {node}: {type(fault).__name__}: {fault}")
            return
        leader = (election.term, election.leader.node, election.leader.bid)
        known = self.leaders.setdefault(group, leader)
        if known[0] == leader[0] and known != leader:
            self.faults.append(f"{group}: {known} and {leader}")
        self.leaders[group] = max(known, leader)

    def elect(self, group: str) -> None:
        """The group's three candidates campaign side by side for the term behind its last one."""
        for _ in self.pool.map(lambda node: self.campaign(node, group), NODES):
            pass
        if group in self.leaders and self.leaders[group][0] > self.gone[group]:
            self.gone[group] = self.leaders[group][0]
            self.elections += 1

    def minute(self, begin: float) -> float:
        """All groups elect, spread over a minute. By how many seconds one of them was late at most."""
        late = 0.0
        for place, group in enumerate(self.groups):
            due = begin + 60.0 * place / len(self.groups)
            late = max(late, time.monotonic() - due)
            time.sleep(max(0.0, due - time.monotonic()))
            self.elect(group)
        time.sleep(max(0.0, begin + 60.0 - time.monotonic()))
        return late

    def tell(self, minute: int, late: float) -> None:
        """Prints the line of a minute that is over."""
        with urllib.request.urlopen(f"http://127.0.0.1:{self.ring.status}/status", timeout=30.0) as answer:
            nodes = json.load(answer)["nodes"]
        used, snapshot = (max(node["journal"][name] for node in nodes) for name in ("used", "snapshot"))
        stands = max(node["stands"]["taken"] for node in nodes)
        print(f"minute {minute} elections {self.elections} used {used} snapshot {snapshot} stands {stands} late {late:.1f}", flush=True)
        self.faults += [f"{line}, in minute {minute}" for line in health(self.ring.status)]

    def run(self, minutes: int) -> int:
        begin = time.monotonic()
        done = 0
        while done < minutes and not self.faults:
            late = self.minute(begin + 60.0 * done)
            done += 1
            self.tell(done, late)
        for fault in self.faults[:10]:
            print(f"fault: {fault}")
        print(f"minutes {done} elections {self.elections} faults {len(self.faults)}")
        return 1 if self.faults else 0


def main() -> int:
    parser = argparse.ArgumentParser(description="Has the candidates of many groups campaign each minute.")
    parser.add_argument("--ringd", default=str(HERE.parent / "bin" / "ringd"), metavar="PATH")
    parser.add_argument("--groups", type=number(1, 1_000), default=60, metavar="G")
    parser.add_argument("--capacity", type=number(4_096, 1_048_576), default=65_536, metavar="C")
    parser.add_argument("--minutes", type=number(1, 100_000), default=60, metavar="M")
    words = parser.parse_args()
    if not os.access(words.ringd, os.X_OK):
        parser.error(f"{words.ringd} is not there; make ringd builds bin/ringd")
    served.RINGD = pathlib.Path(words.ringd).resolve()
    ring = Served("--doors", "16", capacity=words.capacity)
    try:
        return Uses(ring, words.groups).run(words.minutes)
    finally:
        ring.end()


if __name__ == "__main__":
    sys.exit(main())
