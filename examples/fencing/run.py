#!/usr/bin/env python3
"""A leader that is paused, and its late write.

run.py [RINGD]

starts a ring of three nodes, a storage and two copies of a scheduler, all of them in a temporary folder. Once a copy
leads and writes, it is paused; the other one takes over with a greater term; then the first is woken, and goes on with
what it was at: a write with its old term. Prints what happens, line by line. RINGD is a built ringd, or bin/ringd where
none is named.

Status 0 only where the late write was refused, and the file holds each acknowledged write once, in order of terms, and
nothing else. Status 1 where it was not so, or did not come so far in 60 seconds; 2 where there is no such ringd.
"""
import os
import queue
import signal
import subprocess
import sys
import tempfile
import threading
import time

HERE = os.path.dirname(os.path.abspath(__file__))
ROOT = os.path.dirname(os.path.dirname(HERE))
sys.path.append(os.path.join(ROOT, "tests"))
from ports import free_ports

SECONDS = 60.0
# How many jobs a leader writes before the next thing happens.
JOBS = 3


class Fault(Exception):
    """It did not go as it should."""


class Play:
    """The processes, and the lines that the copies print."""

    def __init__(self, ringd: str, folder: str) -> None:
        self.ringd, self.folder = ringd, folder
        self.until = time.monotonic() + SECONDS
        self.processes: list[subprocess.Popen[str]] = []
        self.copies: dict[str, subprocess.Popen[str]] = {}
        self.lines: queue.Queue[str] = queue.Queue()
        # The acknowledged writes, as lines of the file.
        self.written: list[str] = []

    def start(self, *words: str) -> subprocess.Popen[str]:
        process = subprocess.Popen(words, stdout=subprocess.PIPE, text=True)
        self.processes.append(process)
        return process

    def start_ring(self) -> int:
        """Starts ringd at free ports, and gives the first of them."""
        os.mkdir(os.path.join(self.folder, "ring"))
        settings = os.path.join(self.folder, "ring.toml")
        for _ in range(10):
            port = free_ports(3)
            with open(settings, "w", encoding="ascii") as file:
                file.write(f'nodes = 3\ndir = "{self.folder}/ring"\nport = {port}\n')
            process = self.start(self.ringd, "--settings", settings, "--serve", "1000")
            if "serving\n" in process.stdout:
                return port
        raise Fault("ringd does not serve")

    def start_storage(self) -> int:
        """Starts the storage, and gives its port."""
        folder = os.path.join(self.folder, "storage")
        os.mkdir(folder)
        process = self.start(sys.executable, os.path.join(HERE, "storage.py"), folder)
        words = process.stdout.readline().split()
        if len(words) != 2:
            raise Fault("the storage does not serve")
        return int(words[1])

    def start_copy(self, name: str, node: int, port: int, rank: int, storage: int) -> None:
        """Starts a copy that stands at this node, whose port is this."""
        words = [name, str(node), str(port), str(rank), str(storage)]
        process = self.start(sys.executable, os.path.join(HERE, "scheduler.py"), *words)
        self.copies[name] = process
        threading.Thread(target=self.read_all, args=(process,), daemon=True).start()

    def read_all(self, process: subprocess.Popen[str]) -> None:
        for line in process.stdout:
            self.lines.put(line)

    def take(self, seconds: float) -> list[str] | None:
        """Prints the next line of a copy, and gives its words; None where none comes in time."""
        try:
            line = self.lines.get(timeout=max(0.0, seconds)).rstrip("\n")
        except queue.Empty:
            return None
        print(line, flush=True)
        words = line.replace(":", "").split()
        if words[1] == "wrote":
            self.written.append(f"{words[6]} {words[0]} job {words[3]}")
        return words

    def next(self) -> list[str]:
        """The words of the next line, for which it waits until the time is over."""
        words = self.take(self.until - time.monotonic())
        if words is None:
            raise Fault(f"it did not come so far in {SECONDS:.0f} seconds")
        return words

    def await_leader(self, above: int) -> tuple[str, int]:
        """Waits until a copy leads with a term above this one and has written so many jobs. Gives its name and term."""
        leader, term, jobs = "", above, 0
        while jobs < JOBS:
            words = self.next()
            if words[1] == "leads" and int(words[4]) > term:
                leader, term, jobs = words[0], int(words[4]), 0
            elif words[0] == leader and words[1] == "wrote":
                jobs += 1
        return leader, term

    def end_copies(self) -> None:
        """Ends the copies behind the writes that they are at, and takes the lines that they left."""
        for process in self.copies.values():
            process.send_signal(signal.SIGTERM)
        for name, process in self.copies.items():
            if process.wait(max(1.0, self.until - time.monotonic())) != 0:
                raise Fault(f"{name} ended with status {process.returncode}")
        while self.take(0.5) is not None:
            pass

    def kill_all(self) -> None:
        """Kills what still runs."""
        for process in self.processes:
            if process.poll() is None:
                process.kill()

    def judge(self, name: str, term: int, job: int, taken_over: int) -> None:
        """Judges the file: the job of this copy and term, which was refused, is not in it."""
        with open(os.path.join(self.folder, "storage", "jobs"), encoding="ascii") as file:
            kept = file.read().splitlines()
        with open(os.path.join(self.folder, "storage", "number"), encoding="ascii") as file:
            number = int(file.read())
        terms = [int(line.split()[0]) for line in kept]
        if terms != sorted(terms):
            raise Fault(f"a lower term stands behind a greater one: {kept}")
        if sorted(kept) != sorted(self.written):
            raise Fault(f"the file has {kept}, and acknowledged were {self.written}")
        if any(line.endswith(f" {name} job {job}") for line in kept):
            raise Fault(f"the late write is in the file: {kept}")
        if term not in terms or taken_over not in terms or number != terms[-1]:
            raise Fault(f"the number is {number}, and the file has {kept}")
        counts = ", ".join(f"{terms.count(each)} of term {each}" for each in sorted(set(terms)))
        say(f"the file holds the {len(kept)} acknowledged writes, {counts}, and not job {job} of {name}")


def say(text: str) -> None:
    print(f"-- {text}", flush=True)


def play(stage: Play) -> None:
    port = stage.start_ring()
    storage = stage.start_storage()
    say(f"a ring of three nodes serves from port {port} on, and a storage at port {storage}")
    stage.start_copy("red", 1, port, 2, storage)
    stage.start_copy("blue", 2, port + 1, 1, storage)
    first, term = stage.await_leader(0)
    stage.copies[first].send_signal(signal.SIGSTOP)
    say(f"{first}, which leads in term {term}, is paused")
    second, taken_over = stage.await_leader(term)
    if second == first:
        raise Fault(f"{first} leads in term {taken_over} while it is paused")
    stage.copies[first].send_signal(signal.SIGCONT)
    say(f"{first} is woken, and does not know that {second} leads in term {taken_over}")
    words, late = stage.next(), 0
    while words[:3] != [first, "turned", "away"]:
        # It may learn now that a write was taken before it was paused, but of no second one.
        late += words[:2] == [first, "wrote"]
        if late > 1:
            raise Fault(f"{first} still writes with term {term}")
        words = stage.next()
    if int(words[7]) != term or int(words[10]) < taken_over:
        raise Fault("another write was turned away")
    job = int(words[4])
    for _ in range(JOBS):
        while words[1] != "wrote":
            words = stage.next()
        words = stage.next()
    stage.end_copies()
    stage.judge(first, term, job, taken_over)


def main(words: list[str]) -> int:
    ringd = os.path.abspath(words[0] if words else os.path.join(ROOT, "bin", "ringd"))
    if len(words) > 1 or not os.access(ringd, os.X_OK):
        print(f"usage: examples/fencing/run.py [RINGD]; {ringd} is not there: make ringd builds it", file=sys.stderr)
        return 2
    with tempfile.TemporaryDirectory() as folder:
        stage = Play(ringd, folder)
        # Whatever is waited for ends with the processes.
        timer = threading.Timer(SECONDS, stage.kill_all)
        timer.start()
        try:
            play(stage)
        except (Fault, OSError, ValueError, IndexError, subprocess.TimeoutExpired) as fault:
            say(f"fault: {fault}")
            return 1
        finally:
            timer.cancel()
            stage.kill_all()
            for process in stage.processes:
                process.wait()
    say("the late write was refused")
    return 0


if __name__ == "__main__":
    sys.exit(main(sys.argv[1:]))
