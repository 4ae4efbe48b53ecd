#!/usr/bin/env python3
"""Kills ringd at random moments, starts it again on the same folder, and holds it to all that it ever told a client.

kill.py [--ringd PATH] [--rounds N] [--seed S] [--doors D] [--capacity C]

PATH is a built ringd, bin/ringd where none is named; N, 1 to 100,000, how often it is killed, 100 by default; S a
number that the choices begin with, but not the moments at which threads run; D, 1 to 32, how many doors a node has and
how many clients it is asked by at a time, 1 by default, which gives ringd no word for it; C, 4,096 to 1,048,576, the
capacity of all nodes, in place of one of three by chance. With 8,192 or less a trial without a checkpoint says so, and
its status is 1: it did not try them.

A round starts ringd, asks again what is known, in random order, has a client in a thread for each door of each node ask
`stand`, `who`, `latest` and, once in ten times, `retire`, and kills ringd with signal 9: while it opens its nodes, while
it is asked again, or later. Some rounds share a folder; what is known is of a folder, and the last of its rounds is
followed by one more start at which all of it is asked again. What is checked of each answer stands in known.py. A fault
is printed in full, for the first ten; it ends its folder, and the folder of the first one is kept.

The last line is `rounds N answers A stands S leaders L retires R faults F`: the kills, the answers that came, those that
were `stood`, the groups and terms of which a leader was named, the answers `retired`, and the faults. Status 1 where
there was a fault, or no Stand, leader or `retired` in all rounds; 2 for other arguments.
"""
import argparse
import os
import pathlib
import random
import select
import shutil
import signal
import subprocess
import sys
import tempfile
import time

HERE = os.path.dirname(os.path.abspath(__file__))
sys.path.insert(0, HERE)
import journal
from clients import Client, start
from known import MANY, Known, Question

# How long, in seconds, a step of ringd is waited for before that counts as a fault: a start, an answer.
PATIENCE = 60.0
# How long ringd is asked new questions at most before it is killed, in seconds.
LOAD = 0.15


class Ended(Exception):
    """ringd ended by itself: a fault, but where a port was in use."""


class Ring:
    """A folder, the settings of a ring that lies in it, and what is known of it."""

    def __init__(self, ringd: str, folder: str, doors: int, capacity: int | None, rng: random.Random,
                 nodes: int | None = None) -> None:
        self.ringd, self.folder, self.doors = ringd, folder, doors
        self.nodes = rng.choice([2, 3, 3, 3, 5])
        if nodes is not None:
            self.nodes = nodes
        self.capacity = rng.choice([8_192, 65_536, 1_048_576, 1_048_576])
        if capacity is not None:
            self.capacity = capacity
        self.rounds = rng.randint(3, 10)
        self.known = Known(self.nodes, doors == 1)
        self.port = 0
        # The program that ringd is run by, and its words; and how long ringd serves.
        self.tracer: list[str] = []
        self.words = ["--serve", "1000"]
        os.mkdir(os.path.join(folder, "ring"))

    def start(self, rng: random.Random) -> subprocess.Popen[bytes]:
        """Starts ringd at the ports of before, or at others where there were none."""
        if self.port == 0:
            self.port = rng.randrange(20_000, 32_000)
        settings = os.path.join(self.folder, "settings.toml")
        with open(settings, "w", encoding="ascii") as file:
            file.write(f'nodes = {self.nodes}\ndir = "{self.folder}/ring"\n')
            file.write(f"port = {self.port}\ncapacity = {self.capacity}\n")
        words = [*self.tracer, self.ringd, "--settings", settings, *self.words]
        if self.doors > 1:
            words += ["--doors", str(self.doors)]
        with open(os.path.join(self.folder, "err"), "wb") as err:
            return subprocess.Popen(words, stdin=subprocess.DEVNULL, stdout=subprocess.PIPE, stderr=err, bufsize=0)

    def checkpoints(self) -> int:
        """How many its nodes made."""
        return sum(self.made(node) for node in range(1, self.nodes + 1))

    def made(self, node: int) -> int:
        """How many this node made: each raises the epoch of a journal by 1. A node that was not made has none."""
        data = self.bytes_of(node)
        return max(journal.epochs(data).values(), default=journal.first_epoch(data)) - journal.first_epoch(data)

    def bytes_of(self, node: int) -> bytes:
        """The bytes of this node's journal, none where it was not made."""
        path = pathlib.Path(self.folder, "ring", f"node-{node}.crj")
        return path.read_bytes() if path.exists() else b""

    def await_line(self, process: subprocess.Popen[bytes], line: bytes) -> None:
        """Waits until ringd printed this line. `Ended` where it ended before or does not come so far."""
        text, until = b"", time.monotonic() + PATIENCE
        while not (text.endswith(b"\n" + line) or text == line):
            ready, _, _ = select.select([process.stdout], [], [], max(0.0, until - time.monotonic()))
            byte = process.stdout.read(1) if ready else b""
            if not byte:
                raise Ended(self.why(process, f"did not print {line.decode()!r}, but {text.decode()!r}"))
            text += byte

    def why(self, process: subprocess.Popen[bytes], what: str) -> str:
        """What is told of a ringd that did not do what it should, once it has ended."""
        process.kill()
        status = process.wait()
        with open(os.path.join(self.folder, "err"), encoding="utf-8", errors="replace") as file:
            return f"ringd {what}; status {status}, standard error {file.read()!r}"


class Trial:
    """Rounds, and what came of them."""

    def __init__(self, ringd: str, seed: int, doors: int, capacity: int | None) -> None:
        self.ringd, self.seed, self.doors, self.capacity = ringd, seed, doors, capacity
        self.rng = random.Random(seed)
        self.kills = {"opening": 0, "asked again": 0, "asked": 0}
        self.rounds = self.answers = self.stands = self.leaders = self.unanswered = self.faults = self.checkpoints = 0
        self.retired = 0
        self.opening = 0.01
        self.process: subprocess.Popen[bytes] | None = None

    def start(self, ring: Ring, kill_opening: bool) -> bool:
        """Starts ringd until it serves, or kills it while it opens its nodes. Whether it serves."""
        for _ in range(20):
            self.process = process = ring.start(self.rng)
            try:
                ring.await_line(process, b"capacity %d\n" % ring.capacity)
                begin = time.monotonic()
                if kill_opening:
                    # It may serve already, or have ended by itself.
                    time.sleep(self.rng.uniform(0.0, 1.2 * self.opening))
                    if process.poll() is not None:
                        raise Ended(ring.why(process, "ended by itself"))
                    return False
                ring.await_line(process, b"serving\n")
                self.opening = time.monotonic() - begin
                return True
            except Ended as ended:
                if "cannot be used" not in str(ended):
                    raise
                ring.port = 0
        raise Ended("found no free ports")

    def ask(self, ring: Ring, kind: str) -> None:
        """Has clients ask again what is known, then new questions unless this is a last look, and kills ringd."""
        clients = []
        for node in range(1, ring.nodes + 1):
            again = ring.known.questions(node, self.rng)
            for door in range(self.doors):
                rng = random.Random(f"{self.seed} {self.rounds} {node} {door}")
                clients.append(self.client(ring, node, door, again[door::self.doors], rng))
        threads = start(clients, kind == "look")
        if kind != "asked again":
            for client in clients:
                client.asked_again.wait()
        if kind != "look":
            time.sleep(self.rng.uniform(0.0, LOAD))
        if self.process.poll() is not None:
            ring.known.fault(ring.why(self.process, "ended by itself"))
        for client in clients:
            client.is_killed = True
        self.end(ring, clients)
        for thread in threads:
            thread.join()

    def client(self, ring: Ring, node: int, door: int, again: list[Question], rng: random.Random) -> Client:
        """The client of the node that is for this door."""
        return Client(ring.known, node, ring.port + node - 1, again, rng, PATIENCE)

    def end(self, ring: Ring, clients: list[Client]) -> None:
        """Kills ringd, while these ask."""
        self.process.kill()
        self.process.wait()

    def round(self, ring: Ring, last: bool) -> None:
        """One round, or the last look at a folder, which no kill ends before all that is known was asked again."""
        kind = "look" if last else self.rng.choices(["opening", "asked again", "asked"], [15, 10, 75])[0]
        try:
            if self.start(ring, kind == "opening"):
                self.ask(ring, kind)
        except Ended as ended:
            ring.known.fault(str(ended))
        finally:
            self.process.kill()
            self.process.wait()
            self.process.stdout.close()
        ring.known.process_ended()
        if not last:
            self.rounds += 1
            self.kills[kind] += 1

    def go_on(self, ring: Ring, rounds: int, many: int = MANY) -> None:
        """So many rounds at most, until there is a fault, or a node made so many Stands."""
        for _ in range(rounds):
            if not ring.known.faults and not ring.known.is_used_up(many):
                self.round(ring, False)

    def look(self, ring: Ring) -> None:
        """A last look, where there was no fault."""
        if not ring.known.faults:
            self.round(ring, True)

    def course(self, ring: Ring, rounds: int) -> None:
        """So many rounds at most on this folder, and a last look at it."""
        self.go_on(ring, min(rounds, ring.rounds))
        self.look(ring)

    def ring(self, folder: str) -> Ring:
        """The ring of a folder that is new."""
        return Ring(self.ringd, folder, self.doors, self.capacity, self.rng)

    def folder(self, rounds: int) -> None:
        """So many rounds at most, over a folder of their own."""
        folder, is_kept = tempfile.mkdtemp(prefix="ringd-kill-"), False
        try:
            ring = self.ring(folder)
            known = ring.known
            self.course(ring, rounds)
            self.checkpoints += ring.checkpoints()
            is_kept = bool(known.faults) and self.faults == 0
        finally:
            if not is_kept:
                shutil.rmtree(folder)
        for fault in known.faults[:max(0, 10 - self.faults)]:
            print(f"fault in round {self.rounds}, ring of {ring.nodes}, capacity {ring.capacity}: {fault}", flush=True)
        if is_kept:
            print(f"the folder of this fault is kept: {folder}", flush=True)
        self.answers += known.answers
        self.stands += len(known.acknowledged)
        self.leaders += len(known.leaders)
        self.retired += len(known.retired)
        self.unanswered += known.unanswered
        self.faults += len(known.faults)

    def run(self, rounds: int) -> int:
        print(f"seed {self.seed}", flush=True)
        while self.rounds < rounds:
            self.folder(rounds - self.rounds)
        kills = ", ".join(f"{count} while {kind}" for kind, count in self.kills.items())
        print(f"killed {kills}; {self.unanswered} Stands without an answer; {self.checkpoints} checkpoints")
        print(f"rounds {self.rounds} answers {self.answers} stands {self.stands} leaders {self.leaders} "
              f"retires {self.retired} faults {self.faults}")
        lacks_some = self.lacks()
        if lacks_some:
            print(lacks_some)
        return 1 if self.faults or not self.stands or not self.leaders or lacks_some else 0

    def lacks(self) -> str:
        """What it did not try."""
        is_small = self.capacity is not None and self.capacity <= 8_192
        if is_small and not self.checkpoints:
            return "no checkpoint was made"
        return "" if self.retired else "no term was retired"


def number(low: int, high: int):
    """Reads a number in this range."""
    def read(word: str) -> int:
        if not word.isdigit() or not low <= int(word) <= high:
            raise argparse.ArgumentTypeError(f"{word} is not {low} to {high}")
        return int(word)
    return read


def run(trial: Trial, rounds: int) -> int:
    """Runs it, and leaves no process behind where a signal ends it."""
    def end(_signal: int, _frame: object) -> None:
        sys.exit(1)

    signal.signal(signal.SIGTERM, end)
    try:
        return trial.run(rounds)
    finally:
        if trial.process is not None and trial.process.poll() is None:
            trial.process.kill()


def main() -> int:
    parser = argparse.ArgumentParser(description="Kills ringd at random moments and holds it to what it told.")
    parser.add_argument("--ringd", default=os.path.join(os.path.dirname(HERE), "bin", "ringd"), metavar="PATH")
    parser.add_argument("--rounds", type=number(1, 100_000), default=100, metavar="N")
    parser.add_argument("--seed", type=number(0, 2**63), default=random.randrange(1_000_000), metavar="S")
    parser.add_argument("--doors", type=number(1, 32), default=1, metavar="D")
    parser.add_argument("--capacity", type=number(4_096, 1_048_576), metavar="C")
    words = parser.parse_args()
    if not os.access(words.ringd, os.X_OK):
        parser.error(f"{words.ringd} is not there; make ringd builds bin/ringd")
    trial = Trial(os.path.abspath(words.ringd), words.seed, words.doors, words.capacity)
    return run(trial, words.rounds)


if __name__ == "__main__":
    sys.exit(main())
