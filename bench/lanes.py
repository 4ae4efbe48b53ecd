#!/usr/bin/env python3
"""lanes.py [--with FILE] [P..]: reckons how long `rt ci` takes on P processors, and tells the longest chains of crates.

The costs are those of the table in docs/DEVELOPING.md, or of the one in FILE, which may be what gate.py printed. crates.txt
says what each crate stands on. Without P it is reckoned for 1, 2, 4 and 8 processors.

`rt ci` orders its work by these rules. A crate has three tasks: its proof, its tests and its edits. Its proof and its tests
begin once all crates below it are proved, and do not wait for each other. Its edits wait for both. A chain is a list of tasks
of which each waits for the one before it. Among the tasks that can begin, those come first that have the most lines of code in
the longest chain behind them. Each takes one processor, and where RT_JOBS is not set, a proof or the tests of a crate take up
to four: the processors that are idle are shared by the tasks that can begin. A crate that has no tests, or no edits, has empty
tasks, which count there too.

So there are two limits: the sum of all seconds, divided by the processors, and the longest chain. The table tells both, and the
time that the rules come to. Not in it is the time of what `make test` runs before and behind `rt ci`; of the programs and tests
that `rt ci` runs one after another at its end; and of waiting for memory. That each further processor makes a task faster by 0.7
of the first is a guess."""

import pathlib
import sys
from dataclasses import dataclass
from typing import Iterable, NamedTuple

ROOT = pathlib.Path(__file__).resolve().parent.parent
KINDS = ("proof", "tests", "edits")
HEADS = ["crate", "its proof", "its tests", "its edits"]
ALL = "all crates"
MOST_JOBS = 4
GAIN = 0.7
CHAINS = 5


class Fault(Exception):
    """Why nothing is reckoned."""


class Cost(NamedTuple):
    """The processor seconds of a crate."""

    proof: float = 0
    tests: float = 0
    edits: float = 0


# A crate and one of KINDS.
Name = tuple[str, str]


@dataclass
class Task:
    """What a task waits for, the lines by which it is put in order, and its processor seconds."""

    waits: list[Name]
    lines: int
    seconds: float


class Chain(NamedTuple):
    """Tasks that wait for one another, and their seconds in all."""

    seconds: float
    names: tuple[Name, ...]


def costs(text: str) -> dict[str, Cost]:
    """What each crate costs, by the first table in this text that has the heads of gate.py's."""
    found: dict[str, Cost] = {}
    is_inside = False
    for line in text.splitlines():
        cells = [it.strip() for it in line.strip().strip("|").split("|")] if line.startswith("|") else []
        if not is_inside:
            is_inside = cells == HEADS
        elif len(cells) != len(HEADS):
            break
        elif cells[0] != ALL and not set(line) <= set("|-: "):
            try:
                found[cells[0]] = Cost(*(float(it or 0) for it in cells[1:]))
            except ValueError:
                raise Fault(f"the row of {cells[0]} has what is no number") from None
    if not found:
        raise Fault(f"no table has the heads {', '.join(HEADS)}")
    return found


def libraries(text: str) -> dict[str, list[str]]:
    """For each crate of crates.txt all crates below it, lowest first; in the order in which `rt ci` goes through them."""
    lines = (line.partition(":") for line in text.splitlines() if not line.startswith("#") and ":" in line)
    direct = {name.split()[0]: words.split() for name, _, words in lines}
    found: dict[str, list[str]] = {}

    def look(crate: str, above: tuple[str, ...]) -> None:
        if crate in above:
            raise Fault(f"crates.txt: {crate} stands on itself")
        if crate not in found:
            own = [it for it in direct[crate] if it in direct]
            for it in own:
                look(it, (*above, crate))
            found[crate] = list(dict.fromkeys(below for it in own for below in [*found[it], it]))

    for crate in sorted(direct):
        look(crate, ())
    return found


def code_lines(folder: pathlib.Path) -> int:
    """How many lines a crate's files of code have, empty ones too."""
    return sum(it.read_bytes().count(b"\n") for it in folder.glob("src/**/*.rt"))


def tasks_of(below: dict[str, list[str]], lines: dict[str, int], spent: dict[str, Cost]) -> dict[Name, Task]:
    """The tasks of all crates, each behind those that it waits for. A crate has tests, or edits, where they cost something."""
    found: dict[Name, Task] = {}
    for crate, others in below.items():
        cost, count = spent.get(crate, Cost()), lines[crate]
        waits = [(it, "proof") for it in others]
        found[crate, "proof"] = Task(waits, count, cost.proof)
        found[crate, "tests"] = Task(waits, count * (cost.tests > 0), cost.tests)
        found[crate, "edits"] = Task([(crate, "proof"), (crate, "tests")], count * (cost.edits > 0), cost.edits)
    return found


def in_order(tasks: dict[Name, Task]) -> list[Name]:
    """The tasks in the order in which `rt ci` begins those that wait for nothing."""
    behind = dict.fromkeys(tasks, 0)
    for name in reversed([*tasks]):
        behind[name] += tasks[name].lines
        for it in tasks[name].waits:
            behind[it] = max(behind[it], behind[name])
    return sorted(tasks, key=lambda it: -behind[it])


def clock(tasks: dict[Name, Task], processors: int, has_spare: bool = False) -> float:
    """The seconds that all tasks take side by side: one processor each, or also what is idle beside them."""
    left, ended, now = in_order(tasks), set(), 0.0
    running: dict[Name, tuple[float, int]] = {}
    while left or running:
        ready = [name for name in left if ended.issuperset(tasks[name].waits)]
        for at, name in enumerate(ready):
            idle = processors - sum(jobs for _, jobs in running.values())
            if idle > 0:
                left.remove(name)
                jobs = max(1, min(MOST_JOBS, idle // (len(ready) - at))) if has_spare and name[1] != "edits" else 1
                running[name] = now + tasks[name].seconds / (1 + GAIN * (jobs - 1)), jobs
        now = min(end for end, _ in running.values())
        ended |= {name for name, (end, _) in running.items() if end == now}
        running = {name: it for name, it in running.items() if name not in ended}
    return now


def chains(tasks: dict[Name, Task]) -> list[Chain]:
    """For each crate the longest chain that ends with it, the longest of all first; but for those that others go on from."""
    longest: dict[Name, Chain] = {}
    for name, task in tasks.items():
        before = max((longest[it] for it in task.waits), default=Chain(0, ()))
        longest[name] = Chain(before.seconds + task.seconds, (*before.names, name)) if task.seconds else before
    found: list[Chain] = []
    for it in sorted(longest.values(), key=lambda it: (-it.seconds, -len(it.names))):
        if it.names and not any(other.names[: len(it.names)] == it.names or other.names[-1][0] == it.names[-1][0] for other in found):
            found.append(it)
    return found


def told(name: Name) -> str:
    return name[0] if name[1] == "proof" else f"{name[0]} ({name[1]})"


def row(cells: Iterable[object]) -> str:
    return "| " + " | ".join(str(it) for it in cells) + " |"


def table(tasks: dict[Name, Task], processors: list[int]) -> str:
    """The sums, the clock on each number of processors beside its two limits, and the longest chains."""
    sums = {kind: sum(task.seconds for (_, own), task in tasks.items() if own == kind) for kind in KINDS}
    whole, ends = sum(sums.values()), chains(tasks)
    lines = [f"{whole:.0f} processor seconds: " + ", ".join(f"{kind} {seconds:.0f}" for kind, seconds in sums.items()), ""]
    heads = ["processors", "the sum, divided", "the longest chain", "one processor a task", "with those that are idle"]
    lines += [row(heads), "|" + "---|" * len(heads)]
    for count in processors:
        cells = [whole / count, ends[0].seconds, clock(tasks, count), clock(tasks, count, has_spare=True)]
        lines.append(row([count, *(f"{it:.0f}" for it in cells)]))
    lines += ["", row(["seconds", "the longest chains"]), "|---|---|"]
    for chain in ends[:CHAINS]:
        lines.append(row([f"{chain.seconds:.0f}", ", ".join(f"{told(it)} {tasks[it].seconds:.0f}" for it in chain.names)]))
    return "\n".join(lines)


def main() -> int:
    words = sys.argv[1:]
    page = ROOT / "docs" / "DEVELOPING.md"
    if words[:1] == ["--with"] and len(words) > 1:
        page, words = pathlib.Path(words[1]), words[2:]
    if not all(it.isascii() and it.isdigit() and int(it) for it in words):
        print(__doc__, file=sys.stderr)
        return 2
    try:
        text, below = page.read_text(), libraries((ROOT / "crates.txt").read_text())
        spent = costs(text)
        lines = {it: code_lines(ROOT / "crates" / it) for it in below}
    except OSError as error:
        print(f"lanes.py: {error}", file=sys.stderr)
        return 2
    except Fault as fault:
        print(f"lanes.py: {fault}", file=sys.stderr)
        return 2
    print(table(tasks_of(below, lines, spent), [int(it) for it in words] or [1, 2, 4, 8]))
    for name in sorted(below.keys() - spent.keys()):
        print(f"lanes.py: {name} has no row, and counts as 0", file=sys.stderr)
    for name in sorted(spent.keys() - below.keys()):
        print(f"lanes.py: {name} is no crate of crates.txt, and is left out", file=sys.stderr)
    return 0


if __name__ == "__main__":
    sys.exit(main())
