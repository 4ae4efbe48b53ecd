#!/usr/bin/env python3
"""Fires each alert of examples/alerts.yml by what a ringd really tells, and none by a ring that is well.

alerts.py [--ringd PATH] [--sanitized]

PATH is a built ringd, bin/ringd where none is named. A ring of each course below is brought into what an alert is for:
its disk fails, hangs or is slow (by refuse.c), it is full, at its limit, killed, short of memory, all its doors are
held. Meanwhile its status port is asked, and what that tells is given to promtool as if a quarter of a minute, or a
minute, lay between two answers, so that nobody waits for hours. With --sanitized the program is one whose allocator is
not the C library's, so that it can't be refused memory, and that course is left out. The last line is
`courses N alerts A faults F`: a fault is a course in which another set of alerts fired than it should, or an alert
that fired in none. Status 1 where there is one, 2 for other words, or where promtool or a C compiler is wanting."""
import argparse
import contextlib
import errno
import http.client
import json
import os
import pathlib
import re
import shutil
import socket
import subprocess
import sys
import tempfile
import time
from collections.abc import Callable, Iterator
from typing import NamedTuple

from refusing import NODES, Refusal, exchange, refuser_in
from short import Failed, free_ports

HERE = pathlib.Path(__file__).resolve().parent
RULES = HERE.parent / "examples" / "alerts.yml"
INSTANCE = 'job="ringd",instance="127.0.0.1:7100"'
SAMPLE = re.compile(r"(\w+)(?:\{(.*)\})? (\S+)")
# As long as a step of a start or an answer is waited for, in seconds.
PATIENCE = 60.0


class Trial:
    """A ring of three nodes, and what was told of it at each scrape: None where nothing was."""

    def __init__(self, ringd: str, folder: str, capacity: int = 65_536, doors: int = 2) -> None:
        self.refuser = refuser_in(folder)
        self.folder, self.port = folder, free_ports(NODES + 1)
        self.scrapes: list[dict[str, str] | None] = []
        self.sessions: dict[int, socket.socket] = {}
        self.process: subprocess.Popen[bytes] | None = None
        os.mkdir(f"{folder}/ring")
        pathlib.Path(f"{folder}/settings").write_text(
            f'nodes = {NODES}\ndir = "{folder}/ring"\nport = {self.port}\ncapacity = {capacity}\n', encoding="ascii")
        self.words = [os.path.abspath(ringd), "--settings", f"{folder}/settings", "--always", "--doors", str(doors),
                      "--status", str(self.port + NODES)]
        self.start()

    def start(self) -> None:
        self.process = subprocess.Popen(self.words, stdin=subprocess.DEVNULL, stdout=subprocess.PIPE,
                                        env=self.refuser.environment(Refusal("fdatasync")))
        while b"serving" not in (line := self.process.stdout.readline()):
            if not line:
                raise Failed("ringd does not serve")

    def kill(self) -> None:
        for session in self.sessions.values():
            session.close()
        self.sessions.clear()
        self.process.kill()
        self.process.wait()
        self.process.stdout.close()

    def order(self, name: str, way: int, pause: float = 0.0, is_for_good: bool = True) -> None:
        """The next call of a name, or each from now on, fails so, or begins so much later."""
        self.refuser.order(Refusal(name, 1, way, is_for_good, pause))

    def obey(self) -> None:
        """No call is refused from now on."""
        self.refuser.obey()

    def ask(self, line: str, node: int = 1) -> str:
        """The answer to a line, in a session that stays."""
        if node not in self.sessions:
            self.sessions[node] = socket.create_connection(("127.0.0.1", self.port + node - 1), PATIENCE)
        return exchange(self.sessions[node], line)

    def elect(self, term: int, node: int = 1) -> None:
        """Stands, and waits until the node knows who leads."""
        if (told := self.ask(f"stand red {term} {term}", node)) != "stood":
            raise Failed(f"a Stand is answered with {told!r}")
        end = time.monotonic() + PATIENCE
        while self.ask(f"who red {term}", node) == "none":
            if time.monotonic() > end:
                raise Failed("an election does not end")
            time.sleep(0.005)

    def scrape(self, times: int = 1, pause: float = 0.02) -> None:
        for _ in range(times):
            self.scrapes.append(self.told())
            time.sleep(pause)

    def settle(self) -> None:
        """Waits until no election has ended for a second."""
        end, seen = time.monotonic() + PATIENCE, None
        while (now := self.elections()) != seen:
            if time.monotonic() > end:
                raise Failed("elections go on")
            seen = now
            time.sleep(1.0)

    def elections(self) -> float:
        return sum(float(value) for name, value in self.told().items() if name.startswith("cinoweta_elections_total"))

    def told(self) -> dict[str, str] | None:
        asked = http.client.HTTPConnection("127.0.0.1", self.port + NODES, timeout=PATIENCE)
        try:
            asked.request("GET", "/metrics")
            text = asked.getresponse().read().decode()
        except OSError:
            return None
        finally:
            asked.close()
        found = [match for line in text.splitlines() if (match := SAMPLE.fullmatch(line))]
        return {f"{match[1]}{{{match[2]},{INSTANCE}}}".replace("{None,", "{"): match[3] for match in found}


def well(trial: Trial) -> None:
    for term in range(1, 31):
        trial.elect(term, term % 3 + 1)
        trial.scrape()


def away(trial: Trial) -> None:
    trial.scrape(4)
    trial.kill()
    trial.scrape(8)


def restarts(trial: Trial) -> None:
    for _ in range(4):
        trial.scrape(2)
        trial.kill()
        # The time of a start is told in whole seconds.
        time.sleep(1.1)
        trial.start()
    trial.scrape(2)


def failed(trial: Trial) -> None:
    trial.elect(1)
    trial.scrape(4)
    trial.order("fdatasync", errno.EIO)
    for term in range(2, 34):
        trial.ask(f"stand red {term} 1")
        trial.scrape()


def hangs(trial: Trial) -> None:
    for term in range(1, 5):
        trial.elect(term)
        trial.scrape()
    trial.order("fdatasync", 0, 12.0, is_for_good=False)
    with socket.create_connection(("127.0.0.1", trial.port + 1), PATIENCE) as session:
        session.sendall(b"stand blue 1 1\n")
        trial.scrape(6, 1.9)
        trial.scrape(4, 0.5)


def slow(trial: Trial) -> None:
    trial.elect(1)
    trial.scrape(4)
    trial.order("fdatasync", 0, 0.4)
    for term in range(2, 6):
        trial.elect(term)
        trial.scrape(4, 0.1)


def full(trial: Trial) -> None:
    term, node, refused = 1, 1, 0
    # A node that refuses a Stand may have room again once credits came.
    while refused < NODES:
        told = trial.ask(f"stand red {term} 1", node)
        if told == "no 7 full":
            refused += 1
            trial.settle()
        elif told.startswith(("stood", "no 4", "no 5")):
            term, refused = term + 1, 0
        else:
            raise Failed(f"a ring that fills up answers {told!r}")
        node = node % NODES + 1
    for _ in range(32):
        trial.ask(f"stand red {term} 1", node)
        trial.scrape()


def limit(trial: Trial) -> None:
    trial.scrape(4)
    term = 1
    while (told := trial.ask(f"stand red {term} 1")) == "stood":
        term += 1
    if told != "no 6 limit":
        raise Failed(f"a node that has all Stands answers {told!r}")
    trial.scrape(4)


def ends(trial: Trial) -> None:
    for minute in range(40):
        for term in range(6 * minute + 1, 6 * minute + 7):
            trial.elect(term)
        trial.scrape()


def doors(trial: Trial) -> None:
    with contextlib.ExitStack() as held:
        trial.scrape(2)
        for _ in range(2):
            held.enter_context(socket.create_connection(("127.0.0.1", trial.port + 1), PATIENCE))
        # A session is told of once it is taken from its port.
        time.sleep(0.5)
        trial.scrape(24)


def memory(trial: Trial) -> None:
    """Each growth is refused for a moment, again and again, just as a Stand is sent. In some of these moments rounds are to
    be written, and find none."""
    term = 0
    for _ in range(40):
        with socket.create_connection(("127.0.0.1", trial.port), PATIENCE) as session:
            # The session has by then what a Stand takes of it.
            for _ in range(2):
                term += 1
                exchange(session, f"stand red {term} 1")
            term += 1
            trial.order("memory", errno.ENOMEM)
            session.sendall(f"stand red {term} 1\n".encode())
            time.sleep(0.3)
            trial.obey()
        trial.scrape()


class Course(NamedTuple):
    """What a ring goes through, and which alerts fire then, and which may; how far two scrapes lie apart for promtool."""
    run: Callable[[Trial], None]
    fires: set[str]
    may: set[str] = set()
    capacity: int = 65_536
    step: str = "15s"


COURSES = [
    Course(well, set()), Course(away, {"RingDown"}), Course(restarts, {"RingRestarts"}),
    Course(failed, {"NodeFailed", "NoElections"}), Course(hangs, {"SyncHangs"}), Course(slow, {"SlowSync"}),
    Course(full, {"NodeFull", "NodeNearlyFull", "LastCheckpoint", "NoElections"}, capacity=4_096),
    Course(limit, {"NodeAtLimit", "FewStandsLeft"}, capacity=1_048_576),
    Course(ends, {"StandsEnd"}, capacity=1_048_576, step="1m"), Course(doors, {"AllDoorsBusy"}),
    Course(memory, {"MemoryWanting"}, {"NoElections"}),
]


def series(scrapes: list[dict[str, str] | None]) -> Iterator[dict[str, str]]:
    """What promtool is told: each series with its value at each scrape."""
    yield {"series": f"up{{{INSTANCE}}}", "values": " ".join("0" if told is None else "1" for told in scrapes)}
    for name in sorted({name for told in scrapes if told for name in told}):
        values = [f"{float(told[name]):.6f}" if told and name in told else "_" for told in scrapes]
        yield {"series": name, "values": " ".join(values)}


def fired(course: Course, scrapes: list[dict[str, str] | None], folder: str) -> set[str]:
    """The alerts that fire by what was told."""
    seconds = {"15s": 15, "1m": 60}[course.step] * (len(scrapes) - 1)
    asked = {"expr": 'group by (alertname) (max_over_time(ALERTS{alertstate="firing"}[10h]))', "eval_time": f"{seconds}s"}
    test = {"rule_files": [str(RULES)], "evaluation_interval": "15s",
            "tests": [{"interval": course.step, "input_series": [*series(scrapes)], "promql_expr_test": [asked]}]}
    path = f"{folder}/test.yml"
    # promtool tells what it got, since it is to expect nothing.
    pathlib.Path(path).write_text(json.dumps(test), encoding="utf-8")
    ended = subprocess.run(["promtool", "test", "rules", path], capture_output=True, text=True, check=False)
    told = ended.stdout + ended.stderr
    if ended.returncode != 0 and "got:" not in told:
        raise Failed(f"promtool: {told}")
    return set(re.findall(r'alertname=\\?"(\w+)', told))


def try_course(course: Course, ringd: str) -> set[str]:
    folder = tempfile.mkdtemp(prefix="alerts.")
    try:
        trial = Trial(ringd, folder, course.capacity)
        try:
            course.run(trial)
        finally:
            trial.kill()
        return fired(course, trial.scrapes, folder)
    finally:
        shutil.rmtree(folder, ignore_errors=True)


def main() -> int:
    words = argparse.ArgumentParser(description=__doc__, formatter_class=argparse.RawDescriptionHelpFormatter)
    words.add_argument("--ringd", default="bin/ringd")
    words.add_argument("--sanitized", action="store_true")
    words.add_argument("--only", metavar="COURSE", help="one course alone")
    said = words.parse_args()
    if not os.access(said.ringd, os.X_OK) or not shutil.which("promtool"):
        print("alerts.py: ringd or promtool is not there", file=sys.stderr)
        return 2
    faults = 0
    seen: set[str] = set()
    courses = [course for course in COURSES if said.only in (None, course.run.__name__)
               and not (said.sanitized and course.run is memory)]
    for course in courses:
        try:
            found = try_course(course, said.ringd)
        except (Failed, OSError) as fault:
            print(f"{course.run.__name__}: {fault}")
            faults += 1
            continue
        seen |= found
        is_right = course.fires <= found <= course.fires | course.may
        faults += not is_right
        print(f"{course.run.__name__}: {', '.join(sorted(found)) or 'none'}{'' if is_right else ', and not ' + ', '.join(sorted(course.fires))}",
              flush=True)
    if said.only is None:
        for name in sorted({*re.findall(r"alert: (\w+)", RULES.read_text(encoding="utf-8"))} - seen):
            if not (said.sanitized and name == "MemoryWanting"):
                print(f"{name} fired in no course")
                faults += 1
    print(f"courses {len(courses)} alerts {len(seen)} faults {faults}")
    return 1 if faults else 0


if __name__ == "__main__":
    sys.exit(main())
