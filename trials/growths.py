#!/usr/bin/env python3
"""growths.py [--programs FOLDER] [--tests FOLDER] [--every N] [--first N] [PART..]
growths.py --crates

Refuses a growth of the programs, by tests/refuse.c: growth 1, 2, 3 and so on, until a run has none that is refused. The PARTs, all of
them where none is named:

  tests    the tests named `refused_growths` or `a_refused_growth..`, as `rt test` has left them: each growth alone. They pass
  ringctl  bin/ringctl on three scripts, each growth alone, and with all later ones. It ends with 1, says that it is out of memory, and has
           printed the lines of the commands before, whole; or it prints the whole text
  ringd    a ring of three nodes that is started in an empty folder, and on one of which the next election makes a checkpoint; it is asked
           for two elections, and closed: each growth alone, and with all later ones. It ends by itself within ten seconds with one of its
           texts, or goes on until it is killed. What was answered stands after a start with nothing refused, as known.py says

  --programs FOLDER   where ringctl and ringd are, `bin` by default.
  --tests FOLDER      where the crates with their out/ are, `crates` by default.
  --every N           only each Nth growth of a ring.
  --first N           of a ring, from growth N on, so that runs side by side may share them.
  --crates            prints the crates of tests that have such a test, and refuses nothing.

It prints a line for each test, script and ring with how many growths were refused, and each fault. The last line is `growths N faults F`.
Status 0 where there was no fault; 1 where there was one; 2 where a word is wrong, or a program or a compiler is missing."""

import argparse
import errno
import os
import pathlib
import re
import shutil
import signal
import subprocess
import sys
import tempfile
from collections import Counter

from refusing import ELECTIONS, SPARED, Refusal, Ring, filled, refuser_in

HERE = os.path.dirname(os.path.abspath(__file__))
ROOT = os.path.dirname(HERE)
TEST = re.compile(r"(?:\w+::)*(?:refused_growths|a_refused_growth)\w*")
DECLARED = re.compile(r"^fn (?:refused_growths|a_refused_growth)", re.M)
# What a ring may say that lacked memory.
SAID = re.compile(r"|".join([r"", r"ringd: out of memory\n", r"ringd: node [1-3]: memory\n", r"(ringd: node [1-3] (failed|memory)\n)+",
                             r"ringd: no thread can be started\n"]))
SECONDS = 10


class Trial:
    def __init__(self, words: argparse.Namespace, folder: str) -> None:
        self.words, self.folder = words, folder
        self.refuser = refuser_in(folder)
        self.growths = self.faults = 0

    def fault(self, text: str) -> None:
        self.faults += 1
        print(f"fault, {text}", flush=True)

    def run(self, command: list[str], given: bytes, refusal: Refusal) -> subprocess.CompletedProcess:
        return subprocess.run(command, input=given, capture_output=True, timeout=SECONDS, check=False,
                              env=self.refuser.environment(refusal), cwd=self.folder)

    def tests(self) -> None:
        """Each growth of each test."""
        for program, name in found(self.words.tests):
            at, was_refused = 0, True
            while was_refused:
                at += 1
                ended = self.run([program, name], b"", Refusal(at=at, way=errno.ENOMEM))
                was_refused = self.refuser.refused() > 0
                if ended.returncode != 0:
                    self.fault(f"growth {at} of {name}: {ended.returncode}, {(ended.stdout + ended.stderr)[-300:]!r}")
            self.growths += at - 1
            print(f"{os.path.basename(program)} {name}: {at - 1} growths", flush=True)

    def ringctl(self) -> None:
        for name, script in scripts().items():
            program = [os.path.join(self.words.programs, "ringctl")]
            ends = {len(subprocess.run(program, input=b"".join(script[:count]), capture_output=True, check=True).stdout)
                    for count in range(len(script))}
            whole = subprocess.run(program, input=b"".join(script), capture_output=True, check=True).stdout
            for for_good in (False, True):
                at, was_refused = 0, True
                while was_refused:
                    at += 1
                    ended = self.run(program, b"".join(script), Refusal("memory", at, errno.ENOMEM, for_good))
                    was_refused = self.refuser.refused() > 0
                    told = (ended.returncode, ended.stderr)
                    is_front = whole.startswith(ended.stdout) and len(ended.stdout) in ends
                    if not (told == (0, b"") and ended.stdout == whole or told == (1, b"ringctl: out of memory\n") and is_front and was_refused):
                        self.fault(f"growth {at} of ringctl {name}{' for good' if for_good else ''}: {told} behind {ended.stdout[-100:]!r}")
                self.growths += at - 1
                print(f"ringctl {name}: {at - 1} growths {'for good' if for_good else 'alone'}", flush=True)

    def ringd(self) -> None:
        ringd = os.path.join(self.words.programs, "ringd")
        base = filled(ringd, self.folder, 20)
        for folder in (None, base):
            for for_good in (False, True):
                self.ring(ringd, folder, for_good)

    def ring(self, ringd: str, base: str | None, for_good: bool) -> None:
        """Each growth of a ring."""
        at, count, spared, said = self.words.first, 0, 0, Counter()
        place = f"{'on a folder' if base else 'in an empty folder'}, {'for good' if for_good else 'alone'}"
        while spared < SPARED:
            end = Ring(ringd, self.folder, base).play(self.refuser, Refusal("memory", at, errno.ENOMEM, for_good), ELECTIONS)
            spared = 0 if end.refused else spared + 1
            if not SAID.fullmatch(end.said) or end.status not in (0, 1, None) or end.said == "" and end.status == 1:
                self.fault(f"growth {at} of ringd {place}: it ended with {end.status} and said {end.said!r}")
            for fault in end.faults:
                self.fault(f"growth {at} of ringd {place}: {fault}")
            if end.refused:
                said["killed" if end.status is None else end.said.strip().replace("\n", ", ") or "nothing"] += 1
                count += 1
            at += self.words.every
        self.growths += count
        print(f"ringd {place}: {count} growths; it said {dict(said)}", flush=True)


def grown(crates: str) -> list[str]:
    """The crates of tests in which a growth is refused, by their sources."""
    sources = sorted(pathlib.Path(crates).glob("*_tests/src/**/*.rt"))
    return sorted({it.relative_to(crates).parts[0] for it in sources if DECLARED.search(it.read_text(encoding="utf-8"))})


def found(crates: str) -> list[tuple[str, str]]:
    """The tests that call again, by their programs and whole names."""
    tests = []
    for crate in grown(crates):
        program = os.path.join(crates, crate, "out", f"{crate}_tests")
        if not os.access(program, os.X_OK):
            print(f"growths.py: {program} is not there; rt test builds it", file=sys.stderr)
            sys.exit(2)
        listed = subprocess.run([program, "--list"], capture_output=True, text=True, check=True).stdout
        tests += [(program, name) for name in sorted(set(TEST.findall(listed)))]
    return tests


def scripts() -> dict[str, list[bytes]]:
    """Three scripts, as lists of lines."""
    with open(os.path.join(ROOT, "examples", "first_election.ring"), "rb") as file:
        first = [*file.readlines(), b"audit\n"]
    stopped = b"ring 3 lazy\nstand 1 red 5 10\nflush 1\nstand 1 blue 1 3\nwho 1 red 5\nstop 1 checkpoint 5 fill 1\nshow 1\ncheckpoint 1\n" \
              b"deliver 1 0\ncheckpoint 2\nstop 2 checkpoint 4 new\nlatest 2 red\nflush 2\naudit\n"
    many = b"ring 3 lazy 8192\n" + b"".join(
        b"stand %d g%d %d 1\nflush %d\ndeliver all\nlatest %d g%d\n" % (place % 3 + 1, place % 7, place, place % 3 + 1, place % 3 + 1, place % 7)
        if place % 9 else b"flush 1\nflush 2\nflush 3\ncheckpoint %d\n" % (place % 3 + 1) for place in range(1, 76))
    return {"first_election": first, "stopped_checkpoint": stopped.splitlines(True), "of 300 lines": many.splitlines(True)}


def main() -> int:
    parser = argparse.ArgumentParser(usage=__doc__.split("\n\n")[0])
    parser.add_argument("parts", nargs="*", metavar="PART", default=[])
    parser.add_argument("--programs", default=os.path.join(ROOT, "bin"))
    parser.add_argument("--tests", default=os.path.join(ROOT, "crates"))
    parser.add_argument("--every", type=int, default=1, metavar="N")
    parser.add_argument("--first", type=int, default=1, metavar="N")
    parser.add_argument("--crates", action="store_true")
    words = parser.parse_args()
    if words.crates:
        print(*grown(words.tests))
        return 0
    words.programs, words.tests = os.path.abspath(words.programs), os.path.abspath(words.tests)
    for part in words.parts:
        if part not in ("tests", "ringctl", "ringd"):
            parser.error(f"{part} is none of tests, ringctl, ringd")
    folder = tempfile.mkdtemp(prefix="growths-")
    signal.signal(signal.SIGTERM, lambda *_: sys.exit(1))
    try:
        trial = Trial(words, folder)
        for part in words.parts or ("tests", "ringctl", "ringd"):
            getattr(trial, part)()
        print(f"growths {trial.growths} faults {trial.faults}")
        return 1 if trial.faults or not trial.growths else 0
    finally:
        shutil.rmtree(folder, ignore_errors=True)


if __name__ == "__main__":
    sys.exit(main())
