#!/usr/bin/env python3
"""Kills an earlier ringd at random moments, and has a new one go on in its folder under the same book of answers.

earlier.py --earlier PATH [--ringd PATH] [--rounds N] [--seed S] [--capacity C]

The first PATH is a built ringd of an earlier release, the second one the new one, bin/ringd where none is named; N, 1
to 1,000, how often each of them is killed, 50 by default; S a number that the choices begin with; C, 4,096 to
1,048,576, the capacity of all nodes, in place of one of three by chance. Both are started by words that each release
knows: --settings and --serve.

A round is one of kill.py, and what is known of a folder is held against the answers of both programs; the new one alone
is asked to retire terms. The earlier one has a folder for N rounds, or until a node made half of the Stands that use a
folder up; then the new one is asked again all that was told, and killed as often as the earlier one was. Started once
more, the earlier one is refused, and changes nothing. Folders follow until each was killed N times.

The last lines are those of kill.py, behind the layouts of the journals as the earlier one left them and as the new one
did, with how many were so, and what the earlier one said then. Status 1 also where the new one left a journal in the
layout that it had, or none was made.
"""
import argparse
import os
import pathlib
import random
import re
import subprocess
import sys
from collections import Counter

HERE = os.path.dirname(os.path.abspath(__file__))
sys.path.insert(0, HERE)
import journal
from kill import PATIENCE, Ring, Trial, number, run
from known import MANY

# What an earlier ringd says of journals that have an area of a layout that it does not know.
REFUSED = re.compile(r"ringd: node 1: (damaged 16|unformatted)\n")


class Succession(Trial):
    """Rounds by an earlier ringd, and as many by the new one."""

    def __init__(self, earlier: str, ringd: str, seed: int, capacity: int | None) -> None:
        super().__init__(ringd, seed, 1, capacity)
        self.earlier = earlier
        self.layouts: Counter[tuple[int, int]] = Counter()
        self.said: Counter[str] = Counter()

    def course(self, ring: Ring, rounds: int) -> None:
        ring.ringd, ring.known.retires = self.earlier, False
        before = self.rounds
        self.go_on(ring, (rounds + 1) // 2, MANY // 2)
        layouts = layouts_of(ring)
        ring.ringd, ring.known.retires = self.ringd, True
        self.look(ring)
        self.go_on(ring, self.rounds - before, 2 * MANY)
        self.look(ring)
        self.layouts.update((layout, layouts_of(ring)[node]) for node, layout in layouts.items())
        if not ring.known.faults:
            self.is_refused(ring)

    def is_refused(self, ring: Ring) -> None:
        """The earlier ringd takes nothing of what the new one wrote."""
        ring.ringd, before = self.earlier, files_of(ring)
        self.process = process = ring.start(self.rng)
        try:
            process.communicate(timeout=PATIENCE)
        except subprocess.TimeoutExpired:
            process.kill()
        status, said = process.wait(), pathlib.Path(ring.folder, "err").read_text(errors="replace")
        if status != 1 or not REFUSED.fullmatch(said) or files_of(ring) != before:
            changed = "and changed a file" if files_of(ring) != before else "and changed nothing"
            ring.known.fault(f"the earlier ringd, started again, ended with {status} {changed}; it said {said!r}")
        self.said[said.strip()] += 1

    def lacks(self) -> str:
        told = ", ".join(f"{count} of {old}, then of {new}" for (old, new), count in sorted(self.layouts.items()))
        print(f"layouts of journals: {told}; the earlier one said {dict(self.said)}")
        is_left = any(old >= new for old, new in self.layouts)
        return "no journal got another layout" if is_left or not self.layouts else super().lacks()


def layouts_of(ring: Ring) -> dict[int, int]:
    """By node, of those that were made."""
    journals = {node: ring.bytes_of(node) for node in range(1, ring.nodes + 1)}
    return {node: journal.layout(data) for node, data in journals.items() if data}


def files_of(ring: Ring) -> dict[str, bytes]:
    return {path.name: path.read_bytes() for path in pathlib.Path(ring.folder, "ring").iterdir()}


def program(word: str) -> str:
    if not os.access(word, os.X_OK):
        raise argparse.ArgumentTypeError(f"{word} is no program")
    return os.path.abspath(word)


def main() -> int:
    parser = argparse.ArgumentParser(description="Has a new ringd go on in the folder of an earlier one.")
    parser.add_argument("--earlier", type=program, required=True, metavar="PATH")
    parser.add_argument("--ringd", type=program, default=os.path.join(os.path.dirname(HERE), "bin", "ringd"),
                        metavar="PATH")
    parser.add_argument("--rounds", type=number(1, 1_000), default=50, metavar="N")
    parser.add_argument("--seed", type=number(0, 2**63), default=random.randrange(1_000_000), metavar="S")
    parser.add_argument("--capacity", type=number(4_096, 1_048_576), metavar="C")
    words = parser.parse_args()
    trial = Succession(words.earlier, words.ringd, words.seed, words.capacity)
    return run(trial, 2 * words.rounds)


if __name__ == "__main__":
    sys.exit(main())
