#!/usr/bin/env python3
"""Measures what a ring of three nodes needs for so many groups, whose clients retire.

sizing.py [--ringd PATH] [--row GROUPS,CANDIDATES,KEEP]..

PATH is a built ringd, bin/ringd where none is named; a row of each kind stands in the table of docs/OPERATING.md. In
each group, with a name of 8 letters, CANDIDATES nodes stand for a term; once all nodes know who leads, each retires the
terms more than KEEP below it, and the next term begins, until KEEP + 4 terms were led: then what is kept grows no more.
All groups do so side by side, as fast as they can. The ring has 65,536 bytes, and is begun anew with twice as many where
a Stand or a Retire was refused, or a snapshot took over a quarter, so that no checkpoint comes by itself. Printed is a row of Markdown: the groups, the elections a minute that it came to, the
candidates, KEEP, the capacity that was enough, the greatest snapshot and the most Stands of a node. Status 1 where the
greatest capacity is too small for a row, which is printed without one.
"""
import argparse
import json
import pathlib
import socket
import sys
import time
import urllib.request
from collections.abc import Iterator

HERE = pathlib.Path(__file__).resolve().parent
sys.path.insert(0, str(HERE.parent / "clients" / "python"))
from tests import served
from tests.served import Served

NODES = (1, 2, 3)
ROWS = ["50,1,2", "50,3,2", "50,3,10", "200,1,2", "200,3,2", "200,3,10", "600,1,0", "1000,1,0"]
CAPACITIES = [65_536 << shift for shift in range(5)]
# So many lines are asked before their answers are read.
SIDE_BY_SIDE = 50


class Refused(Exception):
    """A line was refused for room."""


class Session:
    """Lines to a node, many at once."""

    def __init__(self, port: int) -> None:
        self.port = port
        self.left = 0
        self.socket: socket.socket | None = None

    def ask(self, lines: list[str]) -> Iterator[str]:
        for place in range(0, len(lines), SIDE_BY_SIDE):
            some = lines[place:place + SIDE_BY_SIDE]
            self.open(len(some))
            self.socket.sendall("".join(f"{line}\n" for line in some).encode())
            yield from (self.reader.readline().rstrip("\n") for _ in some)

    def open(self, lines: int) -> None:
        """A session has 10,000 lines."""
        self.left -= lines
        if self.left >= 0:
            return
        if self.socket is not None:
            self.socket.close()
        self.socket = socket.create_connection(("127.0.0.1", self.port), 60.0)
        self.reader = self.socket.makefile("r", encoding="ascii")
        self.left = 10_000 - lines


def ask(session: Session, lines: list[str]) -> list[str]:
    """The answers; `Refused` where one is for want of room."""
    answers = list(session.ask(lines))
    for line, answer in zip(lines, answers):
        if answer.startswith(("no 6", "no 7")) or not answer:
            raise Refused(f"{line}: {answer}")
    return answers


def play(ring: Served, groups: int, candidates: int, keep: int) -> tuple[float, int, int]:
    """The elections a minute, the greatest snapshot and the most Stands of a node."""
    names = [f"grp-{number:04d}" for number in range(groups)]
    sessions = [Session(ring.first + node - 1) for node in NODES]
    snapshot = stands = 0
    begin = time.monotonic()
    for term in range(1, keep + 5):
        for place in range(0, groups, SIDE_BY_SIDE):
            some = names[place:place + SIDE_BY_SIDE]
            for number in range(candidates):
                node = (term + number) % 3
                ask(sessions[node], [f"stand {name} {term} {term * 3 + number}" for name in some])
            for session in sessions:
                await_leaders(session, some, term)
        told = json.load(urllib.request.urlopen(f"http://127.0.0.1:{ring.status}/status", timeout=30.0))
        snapshot = max(snapshot, *(node["journal"]["snapshot"] for node in told["nodes"]))
        stands = max(stands, *(node["stands"]["taken"] for node in told["nodes"]))
        if term > keep:
            for session in sessions:
                ask(session, [f"retire {name} {term - keep}" for name in names])
    return 60.0 * groups * (keep + 4) / (time.monotonic() - begin), snapshot, stands


def await_leaders(session: Session, names: list[str], term: int) -> None:
    end = time.monotonic() + 20.0
    while names:
        answers = list(session.ask([f"who {name} {term}" for name in names]))
        names = [name for name, answer in zip(names, answers) if not answer.startswith("leader")]
        if time.monotonic() > end:
            raise Refused(f"no leader in {names[0]}, term {term}")


def row(groups: int, candidates: int, keep: int) -> str | None:
    """The row, by the least capacity that is enough; None where none is."""
    for capacity in CAPACITIES:
        ring = Served("--doors", "2", capacity=capacity)
        try:
            rate, snapshot, stands = play(ring, groups, candidates, keep)
            if 4 * snapshot > capacity:
                raise Refused(f"a snapshot takes {snapshot}")
            return f"| {groups:,} | {rate:,.0f} | {candidates} | {keep} | {capacity:,} | {snapshot:,} | {stands:,} |"
        except (Refused, OSError) as fault:
            print(f"{groups},{candidates},{keep} with {capacity:,}: {fault}", file=sys.stderr, flush=True)
        finally:
            ring.end()
    return None


def main() -> int:
    parser = argparse.ArgumentParser(description=__doc__, formatter_class=argparse.RawDescriptionHelpFormatter)
    parser.add_argument("--ringd", type=pathlib.Path, default=HERE.parent / "bin" / "ringd")
    parser.add_argument("--row", action="append", metavar="GROUPS,CANDIDATES,KEEP")
    told = parser.parse_args()
    served.RINGD = told.ringd.resolve()
    code = 0
    for text in told.row or ROWS:
        groups, candidates, keep = map(int, text.split(","))
        made = row(groups, candidates, keep)
        print(made or f"| {groups:,} | | {candidates} | {keep} | none | | |", flush=True)
        code |= made is None
    return code


if __name__ == "__main__":
    sys.exit(main())
