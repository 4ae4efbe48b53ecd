#!/usr/bin/env python3
"""fuzz.py --seconds N --seed S [KIND..] [--ringd PATH] [--ringctl PATH] [--unproved]

Gives the programs what nobody would give them, and holds what they do against models that share nothing with the proofs. Each KIND is
tried for N seconds, 10 by default, side by side; all of them where none is named:

  scripts   scripts for ringctl, of which some are rows of the gate with lines changed; each printed line worked out by pictures/run.py
  sessions  lines for a ring of ringd, also cut, long and joined, against docs/SESSIONS.md
  settings  settings, against Python's tomllib and the order of faults in docs/OPERATING.md
  words     the words of ringd
  files     node files with bytes changed, cut, added and swapped, against a reader of docs/FORMATS.md: what a start prints, or answers
  heads     heads of HTTP, whole, cut, repeated, with bytes changed

Every tenth script or session has a row of the gate in it (tests/README.md).

Besides: no run is ended by a signal, none hangs for ten seconds, none takes 64 MiB, and no start that is refused changes a file.
--unproved is for builds of `rt try`, which are slow: a hang is a minute then, and memory is not looked at.

S is a number that the cases begin with, but not the moments at which threads run. A difference is told with the smallest case that shows
it, and ends its kind. The last lines are `KIND cases N parts P` for each, a part of a script being a line, or `KIND differs`. Status 0
where nothing differed; 1 where something did; 2 where a word is wrong."""

import argparse
import multiprocessing
import os
import random
import signal
import sys
import time

HERE = os.path.dirname(os.path.abspath(__file__))
sys.path[:0] = [HERE, os.path.join(HERE, "kinds"), os.path.join(HERE, "..", "pictures")]
from files import Files
from heads import Heads
from programs import Kind, Programs
from scripts import Scripts
from sessions import Sessions
from settings import Settings
from words import Words

KINDS: dict[str, type[Kind]] = {kind.name: kind for kind in (Scripts, Sessions, Settings, Words, Files, Heads)}
# How often a case is tried again at most to make it smaller.
TRIES = 400
# How much is shown of a part.
LONG = 300


def smaller(kind: Kind, case: list) -> list:
    """The case without all parts that it differs without."""
    size, tries = max(1, len(case) // 2), 0
    while size:
        at = 0
        while at < len(case) and tries < TRIES:
            rest = case[:at] + case[at + size:]
            tries += 1
            if kind.differs(rest):
                case = rest
            else:
                at += size
        size //= 2
    return case


def tell(kind: Kind, seed: str, case: list, why: str) -> None:
    """Tells of a difference, with the smallest case that was found."""
    if kind.differs(case):
        case = smaller(kind, case)
        why = kind.differs(case) or why
    else:
        why += " (not when it was tried again)"
    print(f"{kind.name} differs, seed {seed}: {why}\nwith {len(case)} parts:", flush=True)
    for part in case:
        text = repr(part)
        print(f"  {text if len(text) < LONG else f'{text[:LONG]}.. ({len(text)} letters)'}", flush=True)


def trial(name: str, words: argparse.Namespace, counts: multiprocessing.Queue) -> None:
    """Tries one kind. Puts how many cases it tried, none where one differed."""
    signal.signal(signal.SIGTERM, lambda *_: sys.exit(1))
    programs = Programs(os.path.abspath(words.ringd), os.path.abspath(words.ringctl), words.unproved)
    try:
        kind = KINDS[name](programs)
        try:
            count = cases(kind, words)
        finally:
            why = kind.close()
        if why:
            print(f"{name} differs: {why}", flush=True)
        counts.put((name, None if why else count))
    finally:
        programs.close()


def cases(kind: Kind, words: argparse.Namespace) -> tuple[int, int] | None:
    """Tries cases until the time is over. How many, and of how many parts, None where one differed."""
    until, count, parts = time.monotonic() + words.seconds, 0, 0
    while time.monotonic() < until:
        seed = f"{words.seed} {kind.name} {count}"
        case = kind.case(random.Random(seed))
        why = kind.differs(case)
        if why:
            tell(kind, seed, case, why)
            return None
        count, parts = count + 1, parts + len(case)
    return count, parts


def main() -> int:
    parser = argparse.ArgumentParser(usage=__doc__.split("\n\n")[0])
    parser.add_argument("kinds", nargs="*", metavar="KIND", default=[])
    parser.add_argument("--seconds", type=int, default=10, metavar="N")
    parser.add_argument("--seed", type=int, default=random.randrange(1_000_000), metavar="S")
    parser.add_argument("--unproved", action="store_true")
    for name in ("ringd", "ringctl"):
        parser.add_argument(f"--{name}", default=os.path.join(os.path.dirname(HERE), "bin", name), metavar="PATH")
    words = parser.parse_args()
    for name in words.kinds:
        if name not in KINDS:
            parser.error(f"{name} is none of {', '.join(KINDS)}")
    for path in (words.ringd, words.ringctl):
        if not os.access(path, os.X_OK):
            parser.error(f"{path} is not there; make bin/{os.path.basename(path)} builds it")
    print(f"seed {words.seed}", flush=True)
    signal.signal(signal.SIGTERM, lambda *_: sys.exit(1))
    counts: multiprocessing.Queue = multiprocessing.Queue()
    names = words.kinds or list(KINDS)
    works = [multiprocessing.Process(target=trial, args=(name, words, counts), daemon=True) for name in names]
    for work in works:
        work.start()
    for work in works:
        work.join()
    told = dict(counts.get() for _ in range(sum(not work.exitcode for work in works)))
    for name in names:
        print("{} cases {} parts {}".format(name, *told[name]) if told.get(name) else f"{name} differs")
    return 0 if all(told.get(name) for name in names) else 1


if __name__ == "__main__":
    sys.exit(main())
