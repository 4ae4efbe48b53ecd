#!/usr/bin/env python3
"""run.py [--jobs N] [--seconds S] [PATH..]: runs the tests of the programs and packages, side by side, each file in a process of its own.

PATH is a folder or a file; without one it is all of tests, clients, examples, pictures, docs, trials and bench. Below them are run: each
test_*.py, by unittest; the tests of each Go module, in parts, and `go vet`; each test_*.yml of alerts, by promtool; `mypy --strict` on each
package that has types; and the comparison of the pictures of the docs. Each is counted, one by one those of Python and of Go.

The programs under test are those of RINGD and RINGCTL, or what the gate has linked in crates/ringd/out and crates/ringctl/out, or bin/ringd
and bin/ringctl. All of them are needed where no PATH is given, and one of them else.

  --jobs N     so many processes at once: as many as there are processors and four by default, as most tests wait.
  --seconds S  after which a process and all that it started are ended, and it counts as failed, 600 by default.

A test that fails is run once more, alone, after the others: where it passes then it counts as passed, and is named as unsteady. A test that is
skipped counts as not run, and its reason is told; `for want of` and names in it are gathered, with those of tools that are not there, in the
line before the last. The last line is `N passed, M failed`. Status 0 where M is 0, else 1; 2 where no program or no test is there."""

import argparse
import json
import os
import pathlib
import re
import resource
import shutil
import signal
import subprocess
import sys
import tempfile
import time
from collections import Counter, defaultdict
from collections.abc import Iterable, Iterator
from typing import NamedTuple

HERE = pathlib.Path(__file__).resolve().parent
ROOT = HERE.parent
FOLDERS = ("tests", "clients", "examples", "pictures", "docs", "trials", "bench")
PROGRAMS = ("ringd", "ringctl")
# What takes longest is begun first.
LONGEST = ("clients/go", "trials/test_known.py", "clients/python/tests/test_served.py", "clients/python/tests/test_shown.py",
           "examples/test_signals.py", "examples/test_worker.py", "clients/python/tests/test_backup.py", "examples/test_turns.py",
           "clients/python/tests/test_faults.py", "clients/python/tests/test_lock.py")
# So many tests of Go are a part, whose outcomes are read from what it prints.
GO_TESTS = 20
GO_OUTCOME = re.compile(r"--- (PASS|FAIL|SKIP): (\w+) \([\d.]+s\)")
GO_OUTCOMES = {"PASS": "passed", "FAIL": "failed", "SKIP": "skipped"}
# Builds the tests of a package, and prints their names.
GO_BUILD = 'go test -c -o "$1" . && { [ ! -e "$1" ] || "$1" -test.list .; }'
# So many lines are printed of what a failure tells, and so many failed tests are run again: where more fail it is not for unsteadiness.
LINES, AGAIN = 200, 30
TIME_OVER, INTERRUPTED = 124, 130


def almost(seconds: float) -> float:
    """When a process tells where it stands, before its time is over."""
    return max(seconds - 10.0, seconds / 2)


class Outcome(NamedTuple):
    """What came of a test: `passed`, `failed` or `skipped`, and why. `is_whole` where it is told of all tests of a file; a test is not
    begun where the process ended before."""
    test: str
    kind: str
    text: str
    is_whole: bool = False
    is_begun: bool = True


class Ended(NamedTuple):
    """A process that ended: its status, what it printed, and what it wrote of its tests."""
    status: int
    output: str
    results: str
    seconds: float

    def why(self) -> str:
        if self.status == TIME_OVER:
            return "its time was over"
        return f"signal {self.status - 128} ended it" if self.status > 128 else f"it ended with status {self.status}"


class Unit:
    """Tests that are run in one process: a command, which counts as one test, passed where its status is 0."""

    def __init__(self, name: str, words: list[str], folder: pathlib.Path = ROOT) -> None:
        self.name, self.words, self.folder = name, words, folder

    def command(self, tests: list[str], results: str, seconds: float) -> list[str]:
        """What runs these tests, or all."""
        return self.words

    def outcomes(self, ended: Ended) -> list[Outcome]:
        """What came of its tests."""
        if ended.status == 0:
            return [Outcome(self.name, "passed", "", True)]
        return [Outcome(self.name, "failed", ended.why(), True)]

    def further(self, ended: Ended) -> "list[Unit]":
        """What is to be run behind it."""
        return []


class PythonFile(Unit):
    """The tests of a file, by unittest."""

    def command(self, tests: list[str], results: str, seconds: float) -> list[str]:
        return [sys.executable, str(HERE / "run_file.py"), *self.words, results, str(almost(seconds)), *tests]

    def outcomes(self, ended: Ended) -> list[Outcome]:
        lines = [json.loads(line) for line in ended.results.splitlines() if line.endswith("}")]
        names = [name for line in lines for name in line.get("tests", [])]
        found = {line["test"]: Outcome(line["test"], line["outcome"], line["text"], line["test"] not in names) for line in lines if "outcome" in line}
        if not lines or not (names or found):
            return [Outcome(self.name, "failed", f"none of its tests was run: {ended.why()}", True)]
        if "ends" not in lines[-1] or ended.status != 0:
            begun = {line["begins"] for line in lines if "begins" in line}
            for name in names:
                text = f"{ended.why()} {'while it ran' if name in begun else 'before it was run'}"
                found.setdefault(name, Outcome(name, "failed", text, False, name in begun))
            if ended.status != 0 and not any(each.kind == "failed" for each in found.values()):
                found[self.name] = Outcome(self.name, "failed", ended.why(), True)
        return list(found.values())


class GoPart(Unit):
    """Some tests of a package of Go, by its program of tests."""

    def __init__(self, name: str, words: list[str], folder: pathlib.Path, tests: list[str]) -> None:
        super().__init__(name, words, folder)
        self.tests = tests

    def command(self, tests: list[str], results: str, seconds: float) -> list[str]:
        wanted = f"^({'|'.join(tests or self.tests)})$"
        return [*self.words, "-test.v", "-test.run", wanted, "-test.count", "1", "-test.timeout", f"{almost(seconds)}s"]

    def outcomes(self, ended: Ended) -> list[Outcome]:
        found, place = [], 0
        for each in GO_OUTCOME.finditer(ended.output):
            found.append(Outcome(each[2], GO_OUTCOMES[each[1]], self.reason(ended.output[place:each.start()], each[2])))
            place = each.end()
        left = [name for name in self.tests if name not in {each.test for each in found}]
        begun = {name for name in left if f"=== RUN   {name}\n" in ended.output}
        if ended.status != 0 and not any(each.kind == "failed" for each in found):
            found += [Outcome(name, "failed", ended.why(), False, name in begun) for name in left]
            found += [Outcome(self.name, "failed", ended.why(), True)] if not left else []
        return found

    @staticmethod
    def reason(told: str, test: str) -> str:
        """What a test told since it began."""
        return re.sub(r"(?m)^ +\w+\.go:\d+: ", "", told.rpartition(f"=== RUN   {test}\n")[2]).strip()


class GoPackage(Unit):
    """Builds the tests of a package, and finds them."""

    def __init__(self, name: str, folder: pathlib.Path, program: str) -> None:
        super().__init__(name, ["sh", "-c", GO_BUILD, "sh", program], folder)
        self.program = program

    def outcomes(self, ended: Ended) -> list[Outcome]:
        return [] if ended.status == 0 else [Outcome(f"{self.name}: the build of the tests", "failed", ended.why(), True)]

    def further(self, ended: Ended) -> list[Unit]:
        tests = re.findall(r"(?m)^(?:Test|Fuzz|Example)\w*$", ended.output) if ended.status == 0 else []
        count = -(-len(tests) // GO_TESTS)
        return [GoPart(f"{self.name}, part {part + 1} of {count}", [self.program], self.folder, tests[part::count]) for part in range(count)]


class Run:
    """A unit that runs, in a folder of its own."""

    def __init__(self, unit: Unit, tests: list[str], folder: str, seconds: float, environment: dict[str, str]) -> None:
        self.unit, self.tests, self.folder = unit, tests, folder
        temporary = os.path.join(folder, "tmp")
        os.makedirs(temporary)
        command = unit.command(tests, self.path("results"), seconds)
        with open(self.path("output"), "wb") as output:
            self.process = subprocess.Popen([sys.executable, str(HERE / "supervise.py"), str(seconds), *command], cwd=unit.folder,
                                            stdin=subprocess.DEVNULL, stdout=output, stderr=output, start_new_session=True,
                                            env={**environment, "TMPDIR": temporary})
        self.begun = time.monotonic()

    def path(self, name: str) -> str:
        return os.path.join(self.folder, name)

    def read(self, name: str) -> str:
        try:
            return pathlib.Path(self.path(name)).read_text(encoding="utf-8", errors="replace")
        except FileNotFoundError:
            return ""

    def ended(self) -> Ended:
        """What came of the process, whose folder is removed."""
        ended = Ended(self.process.returncode, self.read("output"), self.read("results"), time.monotonic() - self.begun)
        shutil.rmtree(self.folder, ignore_errors=True)
        return ended


def cut(text: str) -> str:
    """A text, of which the middle is left out where it is long."""
    lines = text.rstrip("\n").split("\n")
    if len(lines) > LINES:
        lines[LINES // 2:-LINES // 2] = [f"[{len(lines) - LINES} lines are left out]"]
    return "\n".join(lines)


class Runner:
    """Runs units, prints what they do, and counts."""

    def __init__(self, folder: str, jobs: int, seconds: float, environment: dict[str, str]) -> None:
        self.folder, self.jobs, self.seconds, self.environment = folder, jobs, seconds, environment
        self.count = Counter[str]()
        self.failed: list[tuple[Unit, Outcome]] = []
        self.unsteady: list[str] = []
        # How many tests of a file were not run for which reason.
        self.skipped: "defaultdict[tuple[str, str], int]" = defaultdict(int)
        self.runs = 0
        self.running: list[Run] = []

    def start(self, unit: Unit, tests: "list[str] | None" = None) -> Run:
        self.runs += 1
        run = Run(unit, tests or [], os.path.join(self.folder, str(self.runs)), self.seconds, self.environment)
        self.running.append(run)
        return run

    def wait(self) -> Run:
        """The next one that ends."""
        while True:
            for run in self.running:
                if run.process.poll() is not None:
                    self.running.remove(run)
                    return run
            time.sleep(0.02)

    def end_all(self) -> None:
        """Ends what runs, and all that it started."""
        for run in self.running:
            run.process.terminate()
        for run in self.running:
            run.process.wait()

    def take(self, unit: Unit, outcome: Outcome) -> None:
        """Counts what came of a test in the end."""
        self.count[outcome.kind] += 1
        if outcome.kind == "skipped":
            self.skipped[unit.name, outcome.text.strip() or "it gives no reason"] += 1

    def judge(self, unit: Unit, ended: Ended) -> list[Outcome]:
        """What came of the tests of a process, which is printed: in a line, and what failed with all that it told."""
        outcomes = unit.outcomes(ended)
        kinds = Counter(each.kind for each in outcomes)
        told = ", ".join(f"{kinds[kind]} {word}" for kind, word in (("passed", "passed"), ("failed", "failed"), ("skipped", "not run")) if kinds[kind])
        print(f"{ended.seconds:6.1f} s  {unit.name}: {told or 'built'}")
        failed = [each for each in outcomes if each.kind == "failed"]
        for each in failed:
            print(f"failed: {each.test}\n{cut(each.text)}")
        for line in re.findall(r"(?m)^left behind: .*$", ended.output):
            print(f"{unit.name}: {line}")
        if failed and ended.output.strip():
            print(f"what {unit.name} printed:\n{cut(ended.output)}")
        sys.stdout.flush()
        return outcomes

    def run(self, units: list[Unit]) -> None:
        """Runs all of them side by side, and each test that failed again, alone."""
        left = list(units)
        while left or self.running:
            while left and len(self.running) < self.jobs:
                self.start(left.pop(0))
            run = self.wait()
            ended = run.ended()
            left[:0] = run.unit.further(ended)
            for outcome in self.judge(run.unit, ended):
                if outcome.kind == "failed":
                    self.failed.append((run.unit, outcome))
                else:
                    self.take(run.unit, outcome)
        self.run_again()

    def run_again(self) -> None:
        """Runs each test that failed once more; those that were not begun for the end of their process, together."""
        groups: dict[str, tuple[Unit, list[Outcome]]] = {}
        for unit, failed in self.failed:
            groups.setdefault(f"{unit.name} {failed.test if failed.is_begun else ''}", (unit, []))[1].append(failed)
        for place, (unit, failures) in enumerate(groups.values()):
            if place < AGAIN:
                self.again(unit, failures)
                continue
            for failed in failures:
                self.take(unit, failed)
        if len(groups) > AGAIN:
            print(f"as more than {AGAIN} failed, the others were not run again")

    def again(self, unit: Unit, failures: list[Outcome]) -> None:
        """Runs tests of a file that failed once more."""
        names = [failed.test for failed in failures]
        print(f"once more, alone: {', '.join(names)}")
        self.start(unit, [] if failures[0].is_whole else names)
        run = self.wait()
        ended = run.ended()
        outcomes = self.judge(unit, ended)
        # What is built now has its tests run behind it.
        for further in run.unit.further(ended):
            self.start(further)
            outcomes += self.judge(further, self.wait().ended())
        for outcome in outcomes or failures:
            self.take(unit, outcome)
        if failures[0].is_begun and outcomes and all(each.kind != "failed" for each in outcomes):
            self.unsteady.append(f"unsteady: {names[0]} of {unit.name} failed, and passed when it was run once more, alone")


def below(path: pathlib.Path, pattern: str) -> list[pathlib.Path]:
    """The files of such names at or below a path."""
    found = [path] if path.is_file() and path.match(pattern) else path.rglob(pattern)
    return sorted(each for each in found if not any(part.startswith(".") for part in each.relative_to(path).parts))


def shown(path: pathlib.Path) -> str:
    """As it is named from the root of the repository."""
    return os.path.relpath(path, ROOT) if path.is_relative_to(ROOT) else str(path)


class Tools:
    """The tools that are not there, and what is not run for want of them."""

    def __init__(self, environment: dict[str, str]) -> None:
        self.environment = environment
        self.missing: dict[str, list[str]] = {}

    def has(self, tool: str, name: str) -> bool:
        if shutil.which(tool, path=self.environment.get("PATH", "")):
            return True
        self.missing.setdefault(tool, []).append(name)
        return False


def units_of(path: pathlib.Path, folder: str, tools: Tools) -> Iterator[Unit]:
    """What is run at or below a path."""
    for file in below(path, "test_*.py"):
        yield PythonFile(shown(file), [str(file)])
    for module in below(path, "go.mod"):
        packages = sorted({file.parent for file in below(module.parent, "*_test.go")})
        if packages and tools.has("go", f"the tests of {shown(module.parent)}"):
            for number, package in enumerate(packages):
                yield GoPackage(shown(package), package, os.path.join(folder, f"{module.parent.name}-{number}.test"))
            yield Unit(f"{shown(module.parent)}: go vet", ["go", "vet", "./..."], module.parent)
    for file in below(path, "test_*.yml"):
        if tools.has("promtool", shown(file)):
            yield Unit(shown(file), ["promtool", "test", "rules", str(file)])
    for marker in below(path, "py.typed"):
        if tools.has("mypy", f"the types of {shown(marker.parent)}"):
            yield Unit(f"{shown(marker.parent)}: mypy", ["mypy", "--strict", str(marker.parent)])
    for program in below(path, "picture.py"):
        yield Unit(f"{shown(program)} --docs", [sys.executable, str(program), "--docs"])


def programs(needs_all: bool) -> dict[str, str]:
    """The programs under test, by the variables that name them. Exits where they are not there."""
    found = {}
    for name in PROGRAMS:
        given = os.environ.get(name.upper())
        places = [pathlib.Path(given)] if given else [ROOT / "crates" / name / "out" / name, ROOT / "bin" / name]
        path = next((each for each in places if os.access(each, os.X_OK) and each.is_file()), None)
        if path is not None:
            found[name.upper()] = str(path.resolve())
            print(f"{name}: {shown(path.absolute())}")
        elif given or needs_all:
            print(f"run.py: no {name} at {' or '.join(map(shown, places))}: make bin/{name} builds it, and {name.upper()} names another one",
                  file=sys.stderr)
            sys.exit(2)
    if not found:
        print("run.py: neither bin/ringd nor bin/ringctl is there: make bin/ringd builds the one, make bin/ringctl the other", file=sys.stderr)
        sys.exit(2)
    return found


def go_environment(folder: str) -> dict[str, str]:
    """What has Go load nothing from elsewhere, and keep what it builds where this user may write."""
    cache = os.environ.get("GOCACHE") or os.path.join(os.environ.get("XDG_CACHE_HOME") or os.path.expanduser("~/.cache"), "go-build")
    try:
        os.makedirs(cache, exist_ok=True)
        is_writable = os.access(cache, os.W_OK)
    except OSError:
        is_writable = False
    return {"GOCACHE": cache if is_writable else os.path.join(folder, "go-build"), "GOPROXY": "off", "GOTOOLCHAIN": "local",
            "GOFLAGS": f"{os.environ.get('GOFLAGS', '')} -buildvcs=false".strip()}


def rank(unit: Unit) -> int:
    """The place of a unit among those that take longest."""
    return next((place for place, name in enumerate(LONGEST) if unit.name.startswith(name)), len(LONGEST))


def wanted(runner: Runner, tools: Tools) -> list[str]:
    """What is not there, and had to be for all to be run."""
    names = set(tools.missing)
    for _, reason in runner.skipped:
        if match := re.search(r"\bfor want of (.+)", reason):
            names.update(re.split(r",\s+|\s+and\s+", match[1].strip()))
    return sorted(names)


def tell(runner: Runner, tools: Tools) -> None:
    """Prints what was not run, what was unsteady, the seconds, and the counts."""
    for tool, names in sorted(tools.missing.items()):
        print(f"not run: {', '.join(names)}: for want of {tool}")
    for (name, reason), count in sorted(runner.skipped.items()):
        print(f"not run: {count} of {name}: {reason}")
    for line in runner.unsteady:
        print(line)
    used = resource.getrusage(resource.RUSAGE_CHILDREN)
    print(f"processor seconds of all tests, user plus system: {used.ru_utime + used.ru_stime:.1f}")
    if names := wanted(runner, tools):
        print(f"not run for want of: {', '.join(names)}")
    print(f"{runner.count['passed']} passed, {runner.count['failed']} failed", flush=True)


def interrupted(number: int, _frame: object) -> None:
    raise KeyboardInterrupt


def main() -> int:
    parser = argparse.ArgumentParser(usage=(__doc__ or "").split("\n\n", maxsplit=1)[0])
    parser.add_argument("--jobs", type=int, default=(os.cpu_count() or 1) + 4, metavar="N")
    parser.add_argument("--seconds", type=float, default=600.0, metavar="S")
    parser.add_argument("paths", nargs="*", metavar="PATH")
    words = parser.parse_args()
    for number in (signal.SIGTERM, signal.SIGHUP):
        if signal.getsignal(number) != signal.SIG_IGN:
            signal.signal(number, interrupted)
    paths = [pathlib.Path(path).resolve() for path in words.paths] or [ROOT / name for name in FOLDERS]
    found = programs(needs_all=not words.paths)
    folder = tempfile.mkdtemp(prefix="tests-")
    # Who is another user in a test reads below it too.
    os.chmod(folder, 0o755)
    environment = {**os.environ, **go_environment(folder), **found}
    runner, tools = Runner(folder, max(1, words.jobs), words.seconds, environment), Tools(environment)
    try:
        units = {unit.name: unit for path in paths for unit in units_of(path, folder, tools)}
        if not units and not tools.missing:
            print(f"run.py: no tests at {' '.join(map(shown, paths))}", file=sys.stderr)
            return 2
        runner.run(sorted(units.values(), key=rank))
        tell(runner, tools)
        return 1 if runner.count["failed"] else 0
    except KeyboardInterrupt:
        runner.end_all()
        print("run.py: interrupted", file=sys.stderr)
        return INTERRUPTED
    finally:
        runner.end_all()
        shutil.rmtree(folder, ignore_errors=True)


if __name__ == "__main__":
    sys.exit(main())
