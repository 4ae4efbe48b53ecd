#!/usr/bin/env python3
"""Copies the folder of a served ring under load, again and again, and asks each copy for what was answered before it.

copies.py [--ringd PATH] [--copies N] [--capacity C]

PATH is a built ringd, bin/ringd where none is named; N how many copies `cinoweta backup` makes, 100 by default; C the
capacity of all nodes, 8,192 by default, so that checkpoints come all the time. Six clients stand, ask and retire all
the while. Each copy is started at other ports and asked: a Stand that was answered before the copy began is made
already, with its bid, and a leader that was told is told again, but below a floor that was asked for. The last line is
`copies N tries T asked A faults F`. Status 1 where F is not 0, or a copy was not made; 2 for other arguments.
"""
import argparse
import collections
import pathlib
import random
import shutil
import sys
import threading
from typing import NamedTuple

HERE = pathlib.Path(__file__).resolve().parent
sys.path.insert(0, str(HERE.parent / "clients" / "python"))
from cinoweta import AlreadyStands, CinowetaError, Ring
from cinoweta.backup import backup
from tests import served
from tests.served import Served

GROUPS = ("red", "green", "blue", "a-longer-name")
# How many of the latest answers are asked for again, and of all others.
LATEST, OTHERS = 150, 50
KEEP = 5


class Stood(NamedTuple):
    node: int
    group: str
    term: int
    bid: int


class Led(NamedTuple):
    node: int
    group: str
    term: int
    leader: tuple[int, int]


class Load:
    """Clients of a ring, and what they were answered."""

    def __init__(self, ports: str) -> None:
        self.ports, self.is_over = ports, threading.Event()
        self.facts: list[Stood | Led] = []
        # The greatest floor that was asked for at any node, before it was asked for.
        self.floors: dict[str, int] = collections.defaultdict(int)
        self.greatest: dict[str, int] = collections.defaultdict(int)
        self.threads = [threading.Thread(target=self.run, args=(number,)) for number in range(6)]
        for thread in self.threads:
            thread.start()

    def run(self, number: int) -> None:
        rng, node = random.Random(number), number % 3 + 1
        with Ring.parse(self.ports) as ring:
            while not self.is_over.is_set():
                group = rng.choice(GROUPS)
                try:
                    self.ask(ring, rng, node, group)
                except CinowetaError:
                    # Refused, or not answered in time: nothing is known of that.
                    continue

    def ask(self, ring: Ring, rng: random.Random, node: int, group: str) -> None:
        term = self.greatest[group] + 1
        if rng.random() < 0.1 and term > KEEP:
            self.floors[group] = max(self.floors[group], term - KEEP)
            ring.retire(group, term - KEEP, node)
        known = ring.latest(group, node)
        if known is not None:
            self.greatest[group] = max(self.greatest[group], known.term)
            self.facts.append(Led(node, group, known.term, tuple(known.leader)))
        stood = Stood(node, group, self.greatest[group] + 1, rng.randrange(1000))
        ring.stand(group, stood.term, stood.bid, node)
        self.facts.append(stood)

    def end(self) -> None:
        self.is_over.set()
        for thread in self.threads:
            thread.join()


def fault_of(ring: Ring, fact: Stood | Led) -> str | None:
    """What a ring says that goes on from a copy and forgot this."""
    try:
        if isinstance(fact, Stood):
            ring.stand(fact.group, fact.term, 9_999, fact.node)
            return f"{fact}: stood once more"
        leader = ring.who(fact.group, fact.term, fact.node)
        return None if leader is not None and tuple(leader) == fact.leader else f"{fact}: leader {leader}"
    except AlreadyStands as answer:
        return None if answer.text == f"already {fact.bid}" else f"{fact}: {answer}"
    except CinowetaError as answer:
        return f"{fact}: {answer}"


def look(copy: Served, facts: list[Stood | Led], floors: dict[str, int]) -> list[str]:
    """The faults of a copy that is served."""
    faults = []
    with Ring.parse(copy.ports) as ring:
        for fact in facts:
            if fact.term < floors[fact.group]:
                continue
            if fault := fault_of(ring, fact):
                faults.append(fault)
    return faults


def main() -> int:
    parser = argparse.ArgumentParser(description=__doc__, formatter_class=argparse.RawDescriptionHelpFormatter)
    parser.add_argument("--ringd", type=pathlib.Path, default=HERE.parent / "bin" / "ringd")
    parser.add_argument("--copies", type=int, default=100)
    parser.add_argument("--capacity", type=int, default=8_192)
    told = parser.parse_args()
    served.RINGD = told.ringd.resolve()
    ring, copy = Served("--doors", "4", capacity=told.capacity), Served("--doors", "4", capacity=told.capacity)
    load = Load(ring.ports)
    tries = asked = 0
    faults: list[str] = []
    try:
        for _ in range(told.copies):
            copy.kill()
            shutil.rmtree(f"{copy.folder}/ring")
            known = list(load.facts)
            facts = known[-LATEST:] + random.sample(known[:-LATEST], min(OTHERS, len(known[:-LATEST])))
            tries += backup(f"{ring.folder}/ring", f"{copy.folder}/ring", str(served.RINGD))[1]
            if not copy.start():
                raise RuntimeError(f"a copy does not serve: {copy.folder}")
            if all(not thread.is_alive() for thread in load.threads):
                raise RuntimeError("no client asks any more")
            faults += look(copy, facts, load.floors)
            asked += len(facts)
    finally:
        load.end()
        ring.end()
        copy.end()
    print(*faults[:10], sep="\n", end="\n" if faults else "")
    print(f"copies {told.copies} tries {tries} asked {asked} faults {len(faults)}")
    return 1 if faults or not asked else 0


if __name__ == "__main__":
    sys.exit(main())
