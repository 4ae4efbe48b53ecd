"""Locks of one host that a real ringd shows."""
import json
import os
import signal
import subprocess
import time
import unittest

from cinoweta import Lock, Ring, status
from cinoweta.session import Session

from .clock import PATIENCE, took, tried
from .served import HERE, Served, require

setUpModule = require


class ShownTest(unittest.TestCase):
    def start(self, *words: str) -> Served:
        served = Served(*words)
        self.addCleanup(served.end)
        return served

    def lock(self, served: Served, **words: object) -> Lock:
        ring = Ring.parse(served.ports, status=served.status)
        self.addCleanup(ring.close)
        lock = Lock(ring, "jobs", **words)
        self.addCleanup(lock.resign)
        return lock

    def told(self, served: Served) -> tuple[int, bool, bool, str]:
        """The term, whether its holder is present or resigned, and its text, by its own node."""
        for node in (1, 2, 3):
            code, text = status.ask("127.0.0.1", served.status, f"/leaders/jobs?node={node}", 5.0)
            told = json.loads(text) if code == 200 else {}
            if told and told["leader"]["node"] == node:
                return told["leader"]["term"], told["present"], told["resigned"], told["text"]
        return 0, False, False, ""

    def until(self, served: Served, *wanted: object) -> None:
        until = time.monotonic() + PATIENCE
        while self.told(served) != wanted:
            self.assertLess(time.monotonic(), until, self.told(served))
            time.sleep(0.05)

    def test_it_is_present_with_its_text_until_it_resigns(self) -> None:
        served = self.start("--doors", "2", "--idle", "1")
        lock = self.lock(served, text="a worker, ä")
        for term in 1, 2:
            lock.acquire()
            self.until(served, term, True, False, "a worker, ä")
            # Also where who is silent for a second is ended; and a door stays free.
            time.sleep(2.5)
            self.assertEqual(self.told(served), (term, True, False, "a worker, ä"))
            lock.resign()
            self.until(served, term, False, True, "")
        time.sleep(1.0)
        self.assertEqual([node["sessions"]["busy"] for node in status.status(served.status)["nodes"]], [0] * 3)
        # One without a text is present just so.
        with self.lock(served):
            self.until(served, 3, True, False, "")

    def test_who_is_killed_is_not_present(self) -> None:
        served = self.start("--doors", "4")
        words = served.command("lock", "--text", "a worker", "--status", str(served.status), "jobs", "--", "cat")
        # Its command reads from here, and so ends with this test.
        first = subprocess.Popen(words, cwd=HERE.parent, stdin=subprocess.PIPE)
        self.addCleanup(first.wait)
        self.addCleanup(first.kill)
        self.addCleanup(first.stdin.close)
        self.until(served, 1, True, False, "a worker")
        out = json.loads(served.run("--json", "holder", "jobs").stdout)
        self.assertEqual((out["term"], out["pid"], out["text"]), (1, first.pid, "a worker"))
        first.kill()
        first.wait()
        self.until(served, 1, False, False, "")
        with self.lock(served, text="another"):
            self.until(served, 2, True, False, "another")

    def test_where_no_door_is_free_it_is_held_unshown(self) -> None:
        served = self.start("--doors", "1")
        with self.lock(served) as held:
            time.sleep(2.0)
            self.assertEqual((self.told(served)[:2], held.is_lost(), status.health(served.status)), ((1, False), False, []))
        served = self.start("--doors", "3")
        others = [Session("127.0.0.1", served.first + node, 5.0) for node in (0, 0, 1, 1, 2, 2)]
        for other in others:
            other.ask("latest jobs", 5.0)
        with self.lock(served, text="a worker") as held:
            time.sleep(2.0)
            self.assertEqual((self.told(served)[:2], held.is_lost()), ((1, False), False))
            # It is shown once two are free, of which one stays so.
            for other in others[::2]:
                other.close()
            self.until(served, 1, True, False, "a worker")
            others[::2] = [Session("127.0.0.1", served.first + node, 5.0) for node in range(3)]
            for other in others[::2]:
                other.ask("latest jobs", 5.0)
            self.until(served, 1, False, False, "")
            self.assertFalse(held.is_lost())
        for other in others:
            other.close()

    @tried
    def test_nobody_waits_for_a_ring_that_is_away(self) -> None:
        served = self.start("--doors", "4")
        lock = self.lock(served, text="a worker")
        for end in (signal.SIGSTOP, signal.SIGKILL):
            lock.acquire()
            self.until(served, lock.term, True, False, "a worker")
            os.kill(served.process.pid, end)
            time.sleep(0.7)
            before = time.monotonic()
            lock.resign()
            took(before, 0.5)
            if end == signal.SIGSTOP:
                os.kill(served.process.pid, signal.SIGCONT)
                self.until(served, 1, False, True, "")
        served.kill()
        served.start()
        lock.acquire()
        self.until(served, 3, True, False, "a worker")
        # And again behind a start.
        served.kill()
        served.start()
        self.until(served, 3, True, False, "a worker")


if __name__ == "__main__":
    unittest.main()
