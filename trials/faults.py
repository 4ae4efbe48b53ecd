#!/usr/bin/env python3
"""faults.py [--ringd PATH] [--most N] [NAME..]

Has one call of the system fail in a ring of three nodes by `ringd`, by tests/refuse.c: call 1, 2, 3 and so on of `pwrite`, `fdatasync`,
`fsync`, `ftruncate`, `rename`, `openat`, `pread` and `unlink`, or of the NAMEs, until no call of a run is left; with EIO, with ENOSPC, with
EINTR, and for `pwrite` with a write that takes one byte; each alone, and with all later calls of that name, but for calls that are
interrupted for good, which are made again for ever. The ring is started in an empty folder, and on one of which the next election makes a
checkpoint; it is asked for two elections, and closed. Then it is started again with nothing refused.

What is held against each run: a read or a write that is interrupted, and a short write, are finished and nobody sees them. All else fails
a node, or the start, by a text of docs/OPERATING.md, within ten seconds. What was answered the second start knows, as known.py says.

  --ringd PATH   the server, `bin/ringd` by default.
  --most N       so many calls of each name at most.

It prints a line for each name and way with how many calls were refused, and each fault. The last line is `runs N faults F`. Status 0
where there was no fault; 1 where there was one; 2 where a word is wrong or there is no compiler."""

import argparse
import errno
import os
import re
import shutil
import signal
import sys
import tempfile

from refusing import ELECTIONS, NAMES, SPARED, End, Refusal, Ring, filled, refuser_in

FILES = NAMES[1:]
WAYS = {"EIO": errno.EIO, "ENOSPC": errno.ENOSPC, "EINTR": errno.EINTR, "short": 0}
# What may be said: a node that fails while the ring serves, and a start that is refused.
FAILED = re.compile(r"(ringd: node [1-3] failed\n(ringd: \S+/node-[1-3]\.crj: .*\n)?)+")
REFUSED = re.compile(r"ringd: (node [1-3]: device 1\n(ringd: \S+: .+\n)?|settings cannot be read\n(ringd: \S+: .+\n)?)")
# What is made again where it was interrupted.
AGAIN = ("pwrite", "pread")


def is_hidden(refusal: Refusal) -> bool:
    """Whether nobody sees it."""
    return refusal.way == 0 or refusal.way == errno.EINTR and refusal.name in AGAIN


def faults(refusal: Refusal, end: End) -> list[str]:
    """What is wrong with a run."""
    status = 2 if "settings" in end.said else 1
    if end.said == "" or end.refused == 0 or is_hidden(refusal):
        # Other calls too may be made again, or not be needed.
        is_right = end.is_whole and end.said == ""
    elif FAILED.fullmatch(end.said):
        is_right = end.is_answered and end.status == status
    else:
        is_right = REFUSED.fullmatch(end.said) and end.status == status
    return end.faults + ([] if is_right else [f"it ended with {end.status} and said {end.said!r}"])


class Trial:
    def __init__(self, ringd: str, folder: str, most: int) -> None:
        self.ringd, self.folder, self.most = ringd, folder, most
        self.refuser = refuser_in(folder)
        self.base = filled(ringd, folder, 20)
        self.runs = self.faults = 0

    def sweep(self, name: str, way: str, for_good: bool, base: str | None) -> int:
        """Each call of this name fails. How many there were."""
        count = spared = 0
        for at in range(1, self.most + 1):
            refusal = Refusal(name, at, WAYS[way], for_good)
            end = Ring(self.ringd, self.folder, base).play(self.refuser, refusal, ELECTIONS)
            self.runs += 1
            for fault in faults(refusal, end):
                self.faults += 1
                place = "on a folder" if base else "in an empty folder"
                print(f"fault, call {at} of {name} {way}{' for good' if for_good else ''}, {place}: {fault}", flush=True)
            count += end.refused > 0
            spared = 0 if end.refused else spared + 1
            if spared == SPARED:
                break
        return count

    def run(self, names: list[str]) -> int:
        for name, way, for_good in [(name, way, for_good) for name in names for way in WAYS for for_good in (False, True)]:
            is_endless = for_good and way == "EINTR"
            if not is_endless and (way != "short" or name == "pwrite"):
                counts = [self.sweep(name, way, for_good, base) for base in (None, self.base)]
                print(f"{name} {way} {'for good' if for_good else 'alone'}: {counts[0]} calls in an empty folder, {counts[1]} on one", flush=True)
        print(f"runs {self.runs} faults {self.faults}")
        return 1 if self.faults or not self.runs else 0


def main() -> int:
    parser = argparse.ArgumentParser(usage=__doc__.split("\n\n")[0])
    parser.add_argument("names", nargs="*", metavar="NAME", default=[])
    parser.add_argument("--ringd", default=os.path.join(os.path.dirname(os.path.dirname(os.path.abspath(__file__))), "bin", "ringd"))
    parser.add_argument("--most", type=int, default=10_000, metavar="N")
    words = parser.parse_args()
    for name in words.names:
        if name not in FILES:
            parser.error(f"{name} is none of {', '.join(FILES)}")
    if not os.access(words.ringd, os.X_OK):
        parser.error(f"{words.ringd} is not there; make ringd builds bin/ringd")
    folder = tempfile.mkdtemp(prefix="faults-")
    signal.signal(signal.SIGTERM, lambda *_: sys.exit(1))
    try:
        return Trial(os.path.abspath(words.ringd), folder, words.most).run(words.names or list(FILES))
    finally:
        shutil.rmtree(folder, ignore_errors=True)


if __name__ == "__main__":
    sys.exit(main())
