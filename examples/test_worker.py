#!/usr/bin/env python3
"""Tests of worker.py: three workers beside a real ringd, which RINGD names, or bin/ringd. `make clients` runs them."""
import itertools
import pathlib
import queue
import signal
import subprocess
import sys
import tempfile
import threading
import time
import unittest

HERE = pathlib.Path(__file__).resolve().parent
sys.path[:0] = [str(HERE), str(HERE.parent / "clients" / "python")]
from tests.clock import took, tried
from tests.served import Served, require

NAMES = ("red", "green", "blue")
setUpModule = require


class WorkerTest(unittest.TestCase):
    def setUp(self) -> None:
        self.processes: list[subprocess.Popen[str]] = []
        self.readers: list[threading.Thread] = []
        self.served = Served("--doors", "4")
        self.addCleanup(self.served.end)
        self.folder = tempfile.TemporaryDirectory()
        self.addCleanup(self.folder.cleanup)
        self.addCleanup(self.end_all)
        storage = self.start(HERE / "fencing" / "storage.py", self.folder.name).stdout.readline().split()[1]
        self.lines: queue.Queue[str] = queue.Queue()
        self.workers = {name: self.start(HERE / "worker.py", name, self.served.ports, storage) for name in NAMES}
        for worker in self.workers.values():
            self.readers.append(threading.Thread(target=self.read, args=(worker,), daemon=True))
            self.readers[-1].start()
        # Who was never answered does not wait for a server that is away.
        starts = 0
        while starts < len(NAMES):
            starts += self.lines.get(timeout=30.0).split()[1] == "starts,"

    def start(self, *words: object) -> "subprocess.Popen[str]":
        process = subprocess.Popen([sys.executable, *map(str, words)], stdout=subprocess.PIPE, text=True)
        self.processes.append(process)
        return process

    def read(self, worker: "subprocess.Popen[str]") -> None:
        for line in worker.stdout:
            self.lines.put(line)

    def end_all(self) -> None:
        # The storage last, which the others write to.
        for process in reversed(self.processes):
            process.kill()
            process.wait()
        for reader in self.readers:
            reader.join()
        for process in self.processes:
            process.stdout.close()

    def leader(self, besides: str = "") -> str:
        """Waits until another worker than this one has written twice in a row, and gives its name."""
        writer, until = "", time.monotonic() + 30.0
        while time.monotonic() < until:
            words = self.lines.get(timeout=30.0).split()
            if words[1] == "wrote" and writer == words[0] != besides:
                return writer
            writer = words[0] if words[1] == "wrote" else ""
        raise AssertionError("nobody writes")

    def written(self) -> list[list[str]]:
        """The term and the worker of each line of the storage."""
        lines = pathlib.Path(self.folder.name, "jobs").read_text(encoding="ascii").splitlines()
        return [[line.split()[0], line.split()[-1]] for line in lines]

    def judge(self, *leaders: str) -> None:
        """These wrote, one after the other, each in a term of its own and a greater one."""
        turns = [turn for turn, _ in itertools.groupby(self.written())]
        self.assertEqual([name for _, name in turns], [*leaders])
        terms = [int(term) for term, _ in turns]
        self.assertEqual(terms, sorted(set(terms)))

    @tried
    def test_a_worker_that_is_killed_is_followed_at_once(self) -> None:
        first = self.leader()
        before = time.monotonic()
        self.workers[first].kill()
        second = self.leader(first)
        took(before, 5.0)
        self.workers[second].kill()
        self.judge(first, second, self.leader(second))

    def test_a_worker_that_is_paused_is_turned_away(self) -> None:
        first = self.leader()
        self.workers[first].send_signal(signal.SIGSTOP)
        second = self.leader(first)
        self.workers[first].send_signal(signal.SIGCONT)
        while self.lines.get(timeout=10.0) != f"{first} leads no more\n":
            pass
        self.leader(first)
        self.judge(first, second)

    def test_a_server_that_is_away_ends_nobody(self) -> None:
        first = self.leader()
        self.served.kill()
        count = len(self.written())
        # Longer than a question waits for its answer.
        time.sleep(12.0)
        self.assertGreater(len(self.written()), count + 5)
        self.workers[first].kill()
        time.sleep(12.0)
        self.assertEqual([worker.poll() for name, worker in self.workers.items() if name != first], [None, None])
        self.served.start()
        self.judge(first, self.leader(first))


if __name__ == "__main__":
    unittest.main()
