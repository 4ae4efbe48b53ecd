#!/usr/bin/env python3
"""gate.py [COMMAND WORD..]: runs the gate, which is `make test` where no command is given, and says what each crate cost.

It runs in the current folder, and hands on the exit status. Every half second it looks through /proc for processes of the
toolchain below the gate. The time of one is what it and all below it, forked copies too, have taken by then, user plus
system. By the crate that is checked there are three kinds: a proof, the tests of a crate (`--test`), and an edit, whose
folder is a copy named rt-edit-... The table of them is Markdown. What tests/run.py and all below it took is a line of its own."""

import collections
import os
import resource
import signal
import subprocess
import sys
import time

PAUSE = 0.5
TICKS = os.sysconf("SC_CLK_TCK")
KINDS = ("proof", "tests", "edits")
OTHER = ("", "other")
# The tests of programs and packages, which tests/run.py runs behind `rt ci`.
PROGRAMS = ("", "programs")

# A process that runs: its parent, its start, and its ticks with those of its children that ended and were waited for.
Process = collections.namedtuple("Process", "parent start ticks")


def processes():
    """Each process of the machine, by its number."""
    found = {}
    for name in filter(str.isdigit, os.listdir("/proc")):
        try:
            with open(f"/proc/{name}/stat", "rb") as stat:
                words = stat.read().rpartition(b")")[2].split()
        except OSError:
            continue
        found[int(name)] = Process(int(words[1]), int(words[19]), sum(map(int, words[11:15])))
    return found


def purpose(number, top):
    """The crate and the kind of a process of the toolchain, or what runs the tests of programs; None of any other process, and of one
    that has ended."""
    try:
        with open(f"/proc/{number}/cmdline", errors="replace") as cmdline:
            words = cmdline.read().split("\0")
        folder = os.readlink(f"/proc/{number}/cwd")
    except OSError:
        return None
    if f"{top}/tests/run.py" in (os.path.join(folder, word) for word in words[:2]):
        return PROGRAMS
    if not os.path.basename(words[0]).startswith("rattle"):
        return None
    if words[1:2] not in (["check"], ["build"]) or "--crate-name" not in words:
        return OTHER
    crate = words[words.index("--crate-name") + 1]
    if os.path.basename(folder).startswith("rt-edit-"):
        return crate, "edits"
    if folder != f"{top}/crates/{crate}":
        return OTHER
    return crate, "tests" if "--test" in words else "proof"


class Costs:
    """What each process of the toolchain below the gate was for, and its ticks with those of all below it."""

    def __init__(self, gate, top):
        self.gate, self.top = gate, top
        self.purposes, self.ticks = {}, {}

    def look(self):
        """Takes the ticks of all that runs now."""
        found = processes()
        below = collections.defaultdict(list)
        for number, process in found.items():
            below[process.parent].append(number)
        now = collections.Counter()
        left = [(number, None) for number in below[self.gate]]
        while left:
            number, tool = left.pop()
            tool = tool or self.tool(number, found[number].start)
            if tool:
                now[tool] += found[number].ticks
            left += [(child, tool) for child in below[number]]
        self.ticks.update(now)

    def tool(self, number, start):
        """What names this process, if it is one of the toolchain."""
        key = number, start
        if key not in self.purposes:
            what = purpose(number, self.top)
            if not what:
                return None
            self.purposes[key] = what
        return key

    def seconds(self):
        """The seconds of each crate and kind."""
        sums = collections.Counter()
        for key, ticks in self.ticks.items():
            sums[self.purposes[key]] += ticks / TICKS
        return sums


def table(seconds):
    """The seconds of each crate, that of the most first, and of all crates."""
    crates = {crate for crate, _ in seconds if crate}
    rows = {crate: [seconds[crate, kind] for kind in KINDS] for crate in crates}
    lines = ["| crate | its proof | its tests | its edits |", "|---|---|---|---|"]
    for crate, row in sorted(rows.items(), key=lambda it: -sum(it[1])):
        lines.append(f"| {crate} | " + " | ".join(f"{it:.0f}" if it else "" for it in row) + " |")
    sums = [sum(row[at] for row in rows.values()) for at in range(len(KINDS))]
    lines.append("| all crates | " + " | ".join(f"{it:.0f}" for it in sums) + " |")
    return "\n".join(lines)


def main():
    begun = time.monotonic()
    gate = subprocess.Popen(sys.argv[1:] or ["make", "test"])
    # An interrupt ends the gate, and what it has cost by then is still told.
    signal.signal(signal.SIGINT, signal.SIG_IGN)
    costs = Costs(gate.pid, os.getcwd())
    while gate.poll() is None:
        costs.look()
        time.sleep(PAUSE)
    status = gate.returncode if gate.returncode >= 0 else 128 - gate.returncode
    wall = time.monotonic() - begun
    used = resource.getrusage(resource.RUSAGE_CHILDREN)
    whole, seconds = used.ru_utime + used.ru_stime, costs.seconds()
    print(f"\nProcessor seconds, user plus system:\n\n{table(seconds)}\n")
    print(
        f"{seconds[PROGRAMS]:.0f} processor seconds of the tests of programs and packages (tests/run.py)\n\n"
        f"{whole:.0f} processor seconds in all, with {seconds[OTHER]:.0f} of other tools (must_not_compile, layout, linking, tests that run)"
        f" and {whole - sum(seconds.values()):.0f} not attributed (rt, programs, ends between two looks);"
        f" wall time {wall:.0f} s; exit status {status}"
    )
    return status


if __name__ == "__main__":
    sys.exit(main())
