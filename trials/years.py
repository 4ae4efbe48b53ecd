#!/usr/bin/env python3
"""Has a ring by ringd elect and retire for many minutes in one process, and looks whether its memory grows.

years.py [--ringd PATH] [--minutes M] [--seed S] [--capacity C]

PATH is a built ringd, bin/ringd where none is named; M, 2 to 100,000, how long the ring serves, 60 by default; S a
number that the choices begin with, but not the moments at which threads run; C, 4,096 to 1,048,576, the capacity of each
of its three nodes, 65,536 by default.

In each of four groups two clients of the package cinoweta campaign for one term after the other. Who comes to lead
retires at all nodes the terms more than 2 below its own, asks who leads, and resigns; the other one takes it for gone
0.02 seconds after it knows of it. Half way, behind a whole minute, ringd is killed with signal 9 and started again on its
folder, while the clients go on; then each node is asked again for all that is known of it, as it is at the end. Its
environment has MALLOC_ARENA_MAX=1, as in examples/ringd.service, unless the caller's says another number.

Each minute has a line `minute N elections E memory K files B threads T descriptors D stand P`: the groups and terms of
which a leader was named so far; of ringd its resident memory in KiB, the bytes of the files in its folder, its threads
and its open descriptors; and the 99th percentile of how long a Stand took in that minute, in milliseconds. What is
checked of each answer stands in known.py, whose book forgets what each node retired, so that this program does not grow
either.

A fault is an answer that is not as known.py has it, or a refusal as 6 or 7; a client that has no answer within a minute,
or finds no leader in three terms; a node that is not well, and what ringd says on standard error; a group of which no
term was retired at all nodes. It ends the trial, and the folder is kept. Memory is judged at the end: that of a half may
be 1.1 times what it was five minutes behind the start of ringd, and no more. Faults are printed, the first ten.

The last line is `minutes M elections E answers A faults F`, and where M is below 12 it says that memory was not judged.
Status 1 where there was a fault; 2 for other arguments.
"""
import argparse
import contextlib
import math
import os
import random
import re
import shutil
import signal
import subprocess
import sys
import tempfile
import threading
import time
from typing import Callable

HERE = os.path.dirname(os.path.abspath(__file__))
sys.path[:0] = [HERE, os.path.join(os.path.dirname(HERE), "clients", "python")]
import cinoweta
from cinoweta.status import health
from cinoweta.steps import at_once
from kill import PATIENCE, Ended, Ring, number, run
from known import GROUPS, Known, Question, Session
from short import Failed, free_ports

NODES = 3
# So many clients campaign in each group, and so many bids there are.
CLIENTS, BIDS = 2, 1_000_000_000
# So long after it knows a leader a client takes it for gone, in seconds: a leader looks whether it leads as often.
LEADS = 0.02
# A node has a door for each client, one for who asks again, and some whose sessions are about to end.
DOORS = len(GROUPS) * CLIENTS + 4
# How often it is looked whether there is a fault, in seconds.
EVERY = 1.0
# Memory is that of the start so many minutes behind it, and may come to so many times that. In fewer minutes than the
# third number this is not judged.
SETTLED, MOST, LEAST = 5, 1.1, 12


class Book:
    """What is known of a ring that many clients ask side by side, and which questions have no answer yet."""

    def __init__(self, known: Known) -> None:
        self.known = known
        self.lock = threading.Lock()
        # Each question has a number, in the order in which they begin.
        self.count = 0
        self.open: set[int] = set()
        # How long each Stand took since that was told last, in seconds.
        self.times: list[float] = []
        # Floors that were settled when the question of the number `mark` was still to begin; and how many terms with a
        # leader were forgotten.
        self.floors: dict[str, int] = {}
        self.mark = self.forgotten = 0
        # Set before the clients end: from then on it is no fault where one breaks off.
        self.is_over = False

    def ask(self, node: int, question: Question, session: Session, send: Callable[[], str]) -> str:
        """The answer that `send` gets from the node, once it was held against what is known."""
        with self.lock:
            mine, self.count = self.count, self.count + 1
            self.open.add(mine)
        try:
            before = self.known.sending(node, question, session)
            begun = time.monotonic()
            try:
                answer = send()
            except OSError:
                self.known.no_answer(node, question)
                raise
            took = time.monotonic() - begun
            self.known.answered(node, question, before, session, answer)
            if answer.startswith(("no 6 ", "no 7 ")):
                self.known.fault(f"{answer!r} of node {node} to {question.line()!r}")
            if question.word == "stand":
                with self.lock:
                    self.times.append(took)
            return answer
        finally:
            with self.lock:
                self.open.remove(mine)

    def has_ended(self, mark: int) -> bool:
        """Whether each question below this number was answered, or will not be."""
        with self.lock:
            return min(self.open, default=self.count) >= mark

    def forget(self) -> None:
        """Forgets what is below the floors that were settled a while ago, once no question of before is open."""
        if self.has_ended(self.mark):
            self.forgotten += sum(self.known.forget(group, floor) for group, floor in self.floors.items())
            self.floors = {group: self.known.settled(group) for group in GROUPS}
            self.mark = self.count

    def elections(self) -> int:
        """The groups and terms of which a leader was named."""
        return self.forgotten + len(self.known.leaders)

    def slow(self) -> float:
        """The 99th percentile of how long a Stand took since this was asked last, in milliseconds."""
        with self.lock:
            times, self.times = sorted(self.times), []
        return 1000 * times[(99 * len(times) - 1) // 100] if times else math.nan


class Judged(cinoweta.Ring):
    """A ring as clients have it, of which each answer is held against what is known."""

    def __init__(self, book: Book, first: int, timeout: float = PATIENCE) -> None:
        super().__init__(first, first + NODES - 1, timeout=timeout)
        self.book, self.told = book, Session()

    async def ask_once(self, line: str, place: int, seconds: float) -> str:
        # What the session was told has to be known before, so one that would be ended is ended now.
        if self.session is not None and (self.session.port != self.first + place - 1 or not self.session.is_usable()):
            self.close()
        word, group, *numbers = line.split(" ")
        question = Question(word, group, *map(int, numbers))
        asked = super().ask_once(line, place, seconds)
        return self.book.ask(place, question, self.told, lambda: at_once(asked))

    def within(self, seconds: float) -> "Judged":
        return Judged(self.book, self.first, min(self.timeout, seconds))

    def close(self) -> None:
        super().close()
        self.told = Session()


class Candidate:
    """A client that campaigns in a group for one term after the other. It is number `place` of those of its group."""

    def __init__(self, book: Book, first: int, group: str, place: int, rng: random.Random) -> None:
        self.book, self.first, self.group, self.place, self.rng = book, first, group, place, rng

    def run(self) -> None:
        """Campaigns until all is over. Whatever keeps it from that is a fault."""
        gone = 0
        try:
            with Judged(self.book, self.first) as ring:
                while not self.book.is_over:
                    gone = self.campaign(ring, gone)
        except Exception as fault:
            if not self.book.is_over:
                self.book.known.fault(f"a client of {self.group} behind term {gone}: {type(fault).__name__}: {fault}")

    def campaign(self, ring: Judged, gone: int) -> int:
        """The next term above this one that has a leader."""
        # No other client of the group has this bid.
        bid = self.rng.randrange(BIDS // CLIENTS) * CLIENTS + self.place
        election = ring.campaign_with(bid, self.group, gone, self.rng.randint(1, NODES))
        if election.is_mine:
            # By now others may have led for so long that its own term is retired.
            with contextlib.suppress(cinoweta.Retired):
                ring.who(self.group, election.term)
        else:
            time.sleep(LEADS)
        return election.term


class Years:
    """A ring that serves for so many minutes, and what came of it."""

    def __init__(self, ringd: str, seed: int, capacity: int) -> None:
        self.ringd, self.seed, self.capacity = ringd, seed, capacity
        self.rng = random.Random(seed)
        self.process: subprocess.Popen[bytes] | None = None
        self.minutes = 0
        # Of each start, the resident memory at the end of each of its minutes, in KiB.
        self.memory: list[list[int]] = []

    def run(self, minutes: int) -> int:
        print(f"seed {self.seed}", flush=True)
        folder, is_kept = tempfile.mkdtemp(prefix="ringd-years-"), False
        try:
            self.make(folder)
            self.live(minutes)
            is_kept = bool(self.known.faults)
        finally:
            self.end()
            if not is_kept:
                shutil.rmtree(folder)
        if is_kept:
            print(f"the folder of this fault is kept: {folder}")
        faults = self.known.faults or (self.grown() if minutes >= LEAST else [])
        for fault in faults[:10]:
            print(f"fault: {fault}")
        told = "" if minutes >= LEAST else f", memory is not judged below {LEAST} minutes"
        print(f"minutes {self.minutes} elections {self.book.elections()} answers {self.known.answers} faults {len(faults)}{told}")
        return 1 if faults else 0

    def make(self, folder: str) -> None:
        """A ring in this folder, which does not run yet, and a book of its answers."""
        self.ring = Ring(self.ringd, folder, DOORS, self.capacity, self.rng, NODES)
        self.known = self.ring.known
        self.book = Book(self.known)

    def live(self, minutes: int) -> None:
        """Serves clients for so many minutes, until there is a fault."""
        try:
            self.ring.port = free_ports(NODES + 1)
            self.ring.words = ["--always", "--status", str(self.ring.port + NODES)]
            self.start()
            threads = self.begin()
            begun = time.monotonic()
            for minute in range(1, minutes + 1):
                if not self.lasts(begun + 60.0 * minute):
                    return
                self.tell(minute)
                if minute == minutes // 2:
                    self.restart()
            self.finish(threads)
        except (Ended, Failed, OSError, cinoweta.CinowetaError) as fault:
            self.known.fault(f"behind minute {self.minutes}: {type(fault).__name__}: {fault}")

    def start(self) -> None:
        self.process = self.ring.start(self.rng)
        self.ring.await_line(self.process, b"serving\n")
        self.memory.append([])

    def begin(self) -> list[threading.Thread]:
        """Has all clients campaign, each in a thread."""
        threads = []
        for group in GROUPS:
            for place in range(CLIENTS):
                candidate = Candidate(self.book, self.ring.port, group, place, random.Random(f"{self.seed} {group} {place}"))
                threads.append(threading.Thread(target=candidate.run, daemon=True))
        for thread in threads:
            thread.start()
        return threads

    def lasts(self, until: float) -> bool:
        """Waits so long. False as soon as there is a fault."""
        while not self.known.faults and (left := until - time.monotonic()) > 0:
            time.sleep(min(left, EVERY))
            if self.process.poll() is not None:
                raise Ended(self.ring.why(self.process, "ended by itself"))
            self.show()
            self.book.forget()
        return not self.known.faults

    def show(self) -> None:
        """Has each node show the floors that it told of."""
        with Judged(self.book, self.ring.port) as ring:
            for node in range(1, NODES + 1):
                for group in GROUPS:
                    floor, _ = self.known.floors.get((node, group), (0, ""))
                    if floor > 1:
                        with contextlib.suppress(cinoweta.Retired):
                            ring.who(group, floor - 1, node)

    def tell(self, minute: int) -> None:
        """Prints the line of a minute that is over. What ringd tells of itself has to be that it is well."""
        self.minutes, process = minute, self.process.pid
        with open(f"/proc/{process}/status", encoding="ascii") as file:
            values = dict(re.findall(r"(\w+):\s+(\d+)", file.read()))
        # A process that has ended has no memory, which the next look at it tells.
        memory, descriptors = int(values.get("VmRSS", 0)), len(os.listdir(f"/proc/{process}/fd"))
        files = sum(entry.stat().st_size for entry in os.scandir(os.path.join(self.ring.folder, "ring")))
        self.memory[-1].append(memory)
        print(f"minute {minute} elections {self.book.elections()} memory {memory} files {files} threads {values['Threads']} "
              f"descriptors {descriptors} stand {self.book.slow():.1f}", flush=True)
        for line in health(self.ring.port + NODES):
            self.known.fault(f"{line}, in minute {minute}")
        with open(os.path.join(self.ring.folder, "err"), encoding="utf-8", errors="replace") as file:
            if said := file.read():
                self.known.fault(f"ringd says {said!r}, in minute {minute}")

    def restart(self) -> None:
        """Kills ringd, and starts it again once no question of before is open; then asks it for all that it told."""
        self.process.kill()
        self.process.wait()
        self.process.stdout.close()
        mark, until = self.book.count, time.monotonic() + PATIENCE
        while not self.book.has_ended(mark):
            if time.monotonic() > until:
                raise Ended("a question is open that a process was asked which is gone")
            time.sleep(0.01)
        self.known.process_ended()
        self.start()
        self.look()

    def look(self) -> None:
        """Asks each node again for all that is known of it."""
        for node in range(1, NODES + 1):
            with self.known.lock:
                questions = self.known.questions(node, self.rng)
            with Judged(self.book, self.ring.port) as ring:
                for question in questions:
                    with contextlib.suppress(cinoweta.Refused):
                        ring.ask(question.line(), node)

    def finish(self, threads: list[threading.Thread]) -> None:
        """Waits for the clients, and has a last look."""
        self.book.is_over = True
        for thread in threads:
            thread.join(PATIENCE)
        self.look()
        for group in GROUPS:
            if not self.known.settled(group):
                self.known.fault(f"no term of {group} was retired at all nodes")

    def end(self) -> None:
        """Ends ringd, where it runs."""
        self.book.is_over = True
        if self.process is not None and self.process.poll() is None:
            self.process.kill()
            self.process.wait()

    def grown(self) -> list[str]:
        """Of each start behind which the memory grew, by how much it did."""
        return [f"memory of start {start} was {memory[SETTLED - 1]} KiB behind {SETTLED} minutes and {memory[-1]} KiB at the end"
                for start, memory in enumerate(self.memory, 1) if memory[-1] > MOST * memory[SETTLED - 1]]


def main() -> int:
    parser = argparse.ArgumentParser(description="Has a ring elect and retire for long, and looks whether its memory grows.")
    parser.add_argument("--ringd", default=os.path.join(os.path.dirname(HERE), "bin", "ringd"), metavar="PATH")
    parser.add_argument("--minutes", type=number(2, 100_000), default=60, metavar="M")
    parser.add_argument("--seed", type=number(0, 2**63), default=random.randrange(1_000_000), metavar="S")
    parser.add_argument("--capacity", type=number(4_096, 1_048_576), default=65_536, metavar="C")
    words = parser.parse_args()
    if not os.access(words.ringd, os.X_OK):
        parser.error(f"{words.ringd} is not there; make ringd builds bin/ringd")
    os.environ.setdefault("MALLOC_ARENA_MAX", "1")
    try:
        return run(Years(os.path.abspath(words.ringd), words.seed, words.capacity), words.minutes)
    except KeyboardInterrupt:
        return 128 + signal.SIGINT


if __name__ == "__main__":
    sys.exit(main())
