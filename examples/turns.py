#!/usr/bin/env python3
"""Four workers that take turns at a lock, and how long each hand-over takes.

turns.py [--ringd PATH] [--seconds S] [--kills N]

Four workers, processes of their own, hold a lock for 0.2 s and take it again at once, for S seconds, 40 where none are told;
then a holder is killed while another worker waits, N times, 8 where none are told. So on one host, and across hosts, by a ring
of PATH, or of bin/ringd. Prints the turns of each, and in milliseconds the least, the quarters and the most of how long it took
from a resign, and from a kill, to the next holder; before that what a Stand alone takes here, and its election. Status 0 where
each worker had between a fifth and a third of the turns both times, 1 else.
"""
import argparse
import os
import pathlib
import statistics
import subprocess
import sys
import time
from collections.abc import Iterable
from typing import NamedTuple

HERE = pathlib.Path(__file__).resolve().parent
sys.path.insert(0, str(HERE.parent / "clients" / "python"))
from cinoweta import Lock, Ring

NAMES, HELD = ("red", "green", "blue", "grey"), 0.2
# So long all workers have to start, and so many elections are measured alone.
START, ALONE = 2.0, 20


class Turn(NamedTuple):
    """One turn of a worker: its term, and from when to when, by the clock that all processes of a host tell alike."""
    term: int
    name: str
    begun: float
    ended: float


def work(name: str, ports: str, status: int, begin: float, until: float, held_for: float) -> None:
    """Takes turns from one time to another, and prints each: once it has begun, and once it ends."""
    ring = Ring.parse(ports, status=status or None)
    lock = Lock(ring, "turns", text=name, across_hosts=status != 0)
    time.sleep(max(0.0, begin - time.monotonic()))
    while time.monotonic() < until:
        lock.acquire(tell=lambda _text: print("waits", flush=True))
        begun = time.monotonic()
        print("begun", lock.term, begun, flush=True)
        time.sleep(held_for)
        print("ended", lock.term, name, begun, time.monotonic(), flush=True)
        lock.resign()


def start(name: str, ports: str, status: int, begin: float, until: float, held_for: float) -> "subprocess.Popen[str]":
    words = [name, ports, *map(str, (status, begin, until, held_for))]
    return subprocess.Popen([sys.executable, __file__, "--work", *words], stdout=subprocess.PIPE, text=True)


def play(ports: str, status: int, seconds: float) -> list[Turn]:
    """The turns of all workers, in order of their terms."""
    begin = time.monotonic() + START
    workers = [start(name, ports, status, begin, begin + seconds, HELD) for name in NAMES]
    rows = [line.split() for worker in workers for line in worker.communicate()[0].splitlines() if line.startswith("ended ")]
    return sorted(Turn(int(term), name, float(begun), float(ended)) for _, term, name, begun, ended in rows)


def kill(ports: str, status: int, count: int) -> list[float]:
    """How long it took from each kill of a holder until the worker that waited held the lock, in seconds."""
    took: list[float] = []
    holder = start("killed", ports, status, 0.0, float("inf"), 600.0)
    begun(holder)
    for _ in range(count):
        waiter = start("killed", ports, status, 0.0, float("inf"), 600.0)
        while waiter.stdout.readline() != "waits\n":
            pass
        time.sleep(0.5)
        killed = time.monotonic()
        holder.kill()
        took.append(begun(waiter) - killed)
        holder.communicate()
        holder = waiter
    holder.kill()
    holder.communicate()
    return sorted(took)


def begun(worker: "subprocess.Popen[str]") -> float:
    """When its turn began, for which it waits."""
    for line in worker.stdout:
        if line.startswith("begun "):
            return float(line.split()[2])
    raise RuntimeError("a worker ended")


def alone(ports: str) -> tuple[list[float], list[float]]:
    """How long each of some Stands took with nobody beside it, and until its leader was known at its node, in seconds."""
    stands, elections = [], []
    with Ring.parse(ports) as ring:
        for term in range(1, ALONE + 1):
            before = time.monotonic()
            ring.stand("alone", term, 1, node=1)
            stands.append(time.monotonic() - before)
            while (known := ring.latest("alone", 1)) is None or known.term < term:
                time.sleep(0.001)
            elections.append(time.monotonic() - before)
    return sorted(stands), sorted(elections)


def quarters(times: Iterable[float]) -> str:
    """The least, the quarters and the most, in milliseconds."""
    told = sorted(1_000 * each for each in times)
    if len(told) < 2:
        return " ".join(f"{each:.1f}" for each in told)
    return " ".join(f"{each:.1f}" for each in (told[0], *statistics.quantiles(told, n=4, method="inclusive"), told[-1]))


def is_fair(where: str, turns: list[Turn]) -> bool:
    """Prints what came of them, and whether each worker had between a fifth and a third."""
    counts = {name: sum(turn.name == name for turn in turns) for name in NAMES}
    print(f"{where}: turns {len(turns)}: " + ", ".join(f"{name} {count}" for name, count in counts.items()))
    print(f"{where}: from a resign to the next holder in ms: {quarters(later.begun - turn.ended for turn, later in zip(turns, turns[1:]))}",
          flush=True)
    return all(len(turns) / 5 <= count <= len(turns) / 3 for count in counts.values())


def main(words: list[str]) -> int:
    parser = argparse.ArgumentParser()
    parser.add_argument("--ringd", metavar="PATH", default=os.environ.get("RINGD", str(HERE.parent / "bin" / "ringd")))
    parser.add_argument("--seconds", type=float, default=40.0, metavar="S")
    parser.add_argument("--kills", type=int, default=8, metavar="N")
    told = parser.parse_args(words)
    os.environ["RINGD"] = told.ringd
    from tests.served import Served, require
    require()
    are_fair: list[bool] = []
    for where, is_across in ("one host", False), ("across hosts", True):
        served = Served("--doors", "8", "--idle", "2")
        try:
            status = served.status if is_across else 0
            if not is_across:
                stands, elections = alone(served.ports)
                print(f"alone: a Stand in ms: {quarters(stands)}; with its election: {quarters(elections)}", flush=True)
            are_fair.append(is_fair(where, play(served.ports, status, told.seconds)))
            print(f"{where}: from a kill to the next holder in ms: {quarters(kill(served.ports, status, told.kills))}", flush=True)
        finally:
            served.end()
    return 0 if all(are_fair) else 1


if __name__ == "__main__":
    if sys.argv[1:2] == ["--work"]:
        work(sys.argv[2], sys.argv[3], int(sys.argv[4]), *map(float, sys.argv[5:]))
    else:
        sys.exit(main(sys.argv[1:]))
