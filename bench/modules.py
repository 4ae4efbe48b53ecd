#!/usr/bin/env python3
"""modules.py FOLDER [N]: which modules of a check took longest, the N first, or 30.

FOLDER is what a `rattle check --incremental FOLDER` filled from nothing, with one job. The checker writes a file for each
module that it is done with, so that the time of one is that behind the file before it. A function has several modules:
`Lts` says what each place holds at each step, `Proof` and `Tie` what follows from that. A line has seconds, bytes and a
name; the last one the sums of each kind."""

import collections
import os
import sys


def files(folder):
    """The files below the folder, by the time at which they were written."""
    found = []
    for base, _, names in os.walk(folder):
        for name in names:
            if name.endswith(".oantt"):
                stat = os.stat(os.path.join(base, name))
                found.append((stat.st_mtime_ns, stat.st_size, name.removesuffix(".oantt").removesuffix(".decls")))
    return sorted(found)


def main():
    if len(sys.argv) not in (2, 3) or not os.path.isdir(sys.argv[1]):
        print(__doc__, file=sys.stderr)
        return 2
    found = files(sys.argv[1])
    times, sizes, kinds = collections.Counter(), collections.Counter(), collections.Counter()
    for (before, _, _), (at, size, name) in zip(found, found[1:]):
        times[name] += (at - before) / 1e9
        sizes[name] += size
        kinds[name.rpartition(".")[2]] += (at - before) / 1e9
    for name, seconds in times.most_common(int(sys.argv[2]) if len(sys.argv) == 3 else 30):
        print(f"{seconds:8.2f} {sizes[name]:10} {name}")
    print(", ".join(f"{kind} {seconds:.0f}" for kind, seconds in kinds.most_common(6)))
    return 0


if __name__ == "__main__":
    sys.exit(main())
