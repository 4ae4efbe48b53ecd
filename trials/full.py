#!/usr/bin/env python3
"""Fills each node of a ring by ringd with Stands that nobody retires, retires them, and goes on, on one folder.

full.py [--ringd PATH] [--times N] [--capacity C] [--seed S]

PATH is a built ringd, bin/ringd where none is named; N, 1 to 1,000, how often the ring is filled, 10 by default; C, 4,096
to 1,048,576, the capacity of each of its three nodes, 4,096 by default; S a number that the choices begin with.

Each time clients stand at all nodes, term after term of four groups, and wait for each leader, until every node refuses a
Stand with 6 or 7. Then `/health` has to name each node as full or at its limit; each node has to take a Retire of each
group, at its latest term; `/health` has to say that all is well, and the next term of each group has to be led. Every
second time ringd is killed in between with signal 9, and started again. All that was told is held against known.py, and
asked again at the end.

The last line is `times N stands S leaders L retires R faults F`. Status 1 where there was a fault; 2 for other arguments.
"""
import argparse
import os
import random
import shutil
import sys
import tempfile
import time

HERE = os.path.dirname(os.path.abspath(__file__))
sys.path[:0] = [HERE, os.path.join(os.path.dirname(HERE), "clients", "python")]
from cinoweta.status import health
from clients import Broken, Client
from kill import PATIENCE, Ended, Ring, number
from known import BIDS, GROUPS, Known, Question
from short import Failed, free_ports

NODES = 3
# So many Stands in a row that a node refuses for room or as its limit mean that it takes none.
REFUSALS = 4
# How long a leader is waited for, and that all is well, in seconds.
SECONDS = 20.0


class Asker(Client):
    """A client that tells what it was answered."""

    answer = ""

    def exchange(self, line: str) -> str:
        self.answer = super().exchange(line)
        return self.answer

    def told(self, question: Question) -> str:
        self.ask(question)
        return self.answer


class Full:
    """A ring that is filled again and again."""

    def __init__(self, ringd: str, folder: str, capacity: int, seed: int) -> None:
        self.rng = random.Random(seed)
        self.ring = Ring(ringd, folder, 2, capacity, self.rng, NODES)
        self.known: Known = self.ring.known
        self.ring.port = free_ports(NODES + 1)
        self.status = self.ring.port + NODES
        self.ring.words = ["--always", "--status", str(self.status)]
        self.begin()

    def begin(self) -> None:
        """Starts ringd, and has a client at each node."""
        self.process = self.ring.start(self.rng)
        self.ring.await_line(self.process, b"serving\n")
        self.clients = [Asker(self.known, node, self.ring.port + node - 1, [], self.rng, PATIENCE)
                        for node in range(1, NODES + 1)]

    def end(self) -> None:
        self.process.kill()
        self.process.wait()
        self.process.stdout.close()

    def restart(self) -> None:
        """Kills it and starts it again. No question is open."""
        self.end()
        self.known.process_ended()
        self.begin()

    def led(self, client: Asker, group: str, term: int) -> bool:
        """Whether the client's node tells a leader of the term, or of a later one, in time."""
        until = time.monotonic() + SECONDS
        while time.monotonic() < until:
            words = client.told(Question("latest", group)).split()
            if words[0] == "term" and int(words[1]) >= term:
                return True
            time.sleep(0.001)
        self.known.fault(f"node {client.node} tells no leader of {group} {term}")
        return False

    def stand(self, client: Asker, group: str) -> str:
        """Stands for the next term of the group, and waits for its leader. What the Stand was answered."""
        term = self.known.greatest.get(group, 0) + 1
        answer = client.told(Question("stand", group, term, self.rng.randrange(BIDS)))
        if answer == "stood":
            self.led(client, group, term)
        return answer

    def fill(self) -> None:
        """Stands until every node refuses so many in a row for room or as its limit, and is told of as such. A node that
        refuses one while a credit is on its way may have room once it came."""
        refused = dict.fromkeys(range(1, NODES + 1), 0)
        until = time.monotonic() + PATIENCE
        while not self.known.faults:
            client = self.rng.choice(self.clients)
            answer = self.stand(client, self.rng.choice(GROUPS))
            if answer.startswith(("no 6 ", "no 7 ")):
                refused[client.node] += 1
            elif answer == "stood":
                refused[client.node] = 0
                until = time.monotonic() + PATIENCE
            if min(refused.values()) >= REFUSALS and self.are_told():
                return
            if time.monotonic() > until:
                self.known.fault(f"nodes take no Stand, and are not told of: {health(self.status)}")

    def are_told(self) -> bool:
        """Whether each node is told of as full or at its limit."""
        lines = set(health(self.status))
        return all({f"node {node} full", f"node {node} limit"} & lines for node in range(1, NODES + 1))

    def retire(self) -> None:
        """Each node gives up all terms of each group below its latest one."""
        for client in self.clients:
            for group in GROUPS:
                words = client.told(Question("latest", group)).split()
                if words[0] != "term":
                    continue
                answer = client.told(Question("retire", group, int(words[1])))
                if answer != "retired" and not answer.startswith("no 23 "):
                    self.known.fault(f"node {client.node} does not retire {group}: {answer!r}")

    def await_well(self) -> None:
        until = time.monotonic() + SECONDS
        while (lines := health(self.status)) and time.monotonic() < until:
            time.sleep(0.05)
        for line in lines:
            self.known.fault(f"{line}, behind the Retires")

    def once(self, restarts: bool) -> None:
        self.fill()
        if restarts:
            self.restart()
        self.retire()
        self.await_well()
        for group in GROUPS:
            if (answer := self.stand(self.rng.choice(self.clients), group)) != "stood":
                self.known.fault(f"behind the Retires a Stand is answered {answer!r}")

    def look(self) -> None:
        """Asks each node again for all that is known of it."""
        self.restart()
        for client in self.clients:
            for question in self.known.questions(client.node, self.rng):
                client.ask(question)

    def run(self, times: int) -> None:
        for time_now in range(1, times + 1):
            self.once(time_now % 2 == 0)
            told = f"time {time_now} stands {len(self.known.stood)} leaders {len(self.known.leaders)}"
            print(f"{told} checkpoints {self.ring.checkpoints()}", flush=True)
            if self.known.faults:
                return
        self.look()


def main() -> int:
    parser = argparse.ArgumentParser(description="Fills a ring by ringd, retires, and goes on.")
    parser.add_argument("--ringd", default=os.path.join(os.path.dirname(HERE), "bin", "ringd"), metavar="PATH")
    parser.add_argument("--times", type=number(1, 1_000), default=10, metavar="N")
    parser.add_argument("--capacity", type=number(4_096, 1_048_576), default=4_096, metavar="C")
    parser.add_argument("--seed", type=number(0, 2**63), default=random.randrange(1_000_000), metavar="S")
    words = parser.parse_args()
    if not os.access(words.ringd, os.X_OK):
        parser.error(f"{words.ringd} is not there; make ringd builds bin/ringd")
    print(f"seed {words.seed}", flush=True)
    folder = tempfile.mkdtemp(prefix="ringd-full-")
    full = Full(os.path.abspath(words.ringd), folder, words.capacity, words.seed)
    try:
        full.run(words.times)
    except (Broken, Ended, Failed, OSError) as fault:
        full.known.fault(f"{type(fault).__name__}: {fault}")
    finally:
        full.end()
    known = full.known
    if known.faults:
        print(f"the folder of this fault is kept: {folder}")
    else:
        shutil.rmtree(folder)
    for fault in known.faults[:10]:
        print(f"fault: {fault}")
    print(f"times {words.times} stands {len(known.stood)} leaders {len(known.leaders)} retires {len(known.retired)} faults {len(known.faults)}")
    return 1 if known.faults else 0


if __name__ == "__main__":
    sys.exit(main())
