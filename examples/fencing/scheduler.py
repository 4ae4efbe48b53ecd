#!/usr/bin/env python3
"""A copy of a scheduler, of which one at a time may write.

scheduler.py NAME NODE PORT RANK STORAGE

stands for the group `jobs` at node NODE of a ring, which listens at 127.0.0.1:PORT, and while it leads it writes a job
every fifth of a second to the storage at 127.0.0.1:STORAGE, each with its term. RANK is 0 to 999: where several copies
stand for one term at a time, one with the greatest rank leads. It prints what it does, a line each, until it is sent
SIGTERM: then it ends behind the write that it is at, with status 0. Status 1 where the node takes no Stand any more,
where no leader comes to be known, or where the node or the storage does not answer; 2 for other arguments.
"""
import os
import signal
import sys
import time

sys.path.insert(0, os.path.join(os.path.dirname(os.path.abspath(__file__)), ".."))
from client import Client, NoAnswer, NoLeader
from client import Refused as StandRefused
from storage import Refused, StorageClient

GROUP = "jobs"
# A job is written so often, in seconds. A leader counts as gone where no job was written for GONE.
EVERY, GONE = 0.2, 1.5


class Scheduler:
    def __init__(self, name: str, node: int, port: int, rank: int, storage: int) -> None:
        self.name, self.rank = name, rank
        self.client = Client(port, node)
        self.storage = StorageClient(storage)
        # The greatest term whose leader is gone, or was let through by the storage.
        self.gone = 0
        self.jobs = 0
        self.ends = False

    def tell(self, text: str) -> None:
        print(f"{self.name}: {text}", flush=True)

    def lead(self, term: int) -> None:
        """Writes until it is turned away. It asks nobody whether it still leads: the storage knows better."""
        self.tell(f"leads in term {term}")
        while not self.ends:
            self.jobs += 1
            job = f"{self.name} job {self.jobs}"
            try:
                self.storage.write(term, job)
            except Refused as refused:
                # It never stands for a term again that was let through already, whatever the ring remembers.
                self.gone = max(self.gone, refused.held)
                self.tell(f"turned away: job {self.jobs} of term {term} is below {refused.held}")
                return
            self.tell(f"wrote job {self.jobs} of term {term}")
            time.sleep(EVERY)

    def follow(self) -> None:
        """Waits until the leader is gone, which here is: no job was written for so long."""
        count, since = self.storage.count(), time.monotonic()
        while not self.ends and time.monotonic() - since < GONE:
            time.sleep(EVERY)
            seen = self.storage.count()
            if seen != count:
                count, since = seen, time.monotonic()

    def run(self) -> None:
        latest = self.client.latest(GROUP)
        # A session holds one of the node's doors.
        self.client.close()
        if latest is not None:
            self.gone = latest[0]
            self.tell(f"follows: node {latest[1].node} leads in term {self.gone}")
            self.follow()
        while not self.ends:
            self.tell(f"campaigns for a term above {self.gone}")
            election = self.client.campaign(GROUP, self.gone, self.rank)
            self.gone = election.term
            if election.is_mine:
                self.lead(election.term)
            else:
                self.tell(f"follows: node {election.leader.node} leads in term {election.term}")
            self.follow()


def main(words: list[str]) -> int:
    numbers = [int(word) for word in words[1:] if word.isdecimal()]
    if len(words) != 5 or len(numbers) != 4 or not 1 <= numbers[0] <= 16 or numbers[2] > 999:
        print("usage: scheduler.py NAME NODE PORT RANK STORAGE", file=sys.stderr)
        return 2
    name, (node, port, rank, storage) = words[0], numbers
    scheduler = Scheduler(name, node, port, rank, storage)

    def end(_signal: int, _frame: object) -> None:
        scheduler.ends = True

    signal.signal(signal.SIGTERM, end)
    try:
        scheduler.run()
    except (StandRefused, NoAnswer, NoLeader, OSError) as fault:
        print(f"scheduler.py: {name}: {fault}", file=sys.stderr)
        return 1
    return 0


if __name__ == "__main__":
    sys.exit(main(sys.argv[1:]))
