"""The groups of a ring go on in a new one, beside a real ringd."""
import itertools
import threading
import time
import unittest

from cinoweta import Full, LimitReached, Lock, Ring, status
from cinoweta.move import terms

from .served import Served, require

setUpModule = require


class MoveTest(unittest.TestCase):
    def serve(self, capacity: int = 65_536) -> Served:
        served = Served(capacity=capacity)
        self.addCleanup(served.end)
        return served

    def move(self, old: Served, new: Served) -> tuple[int, list[str], str]:
        """The command's status, and what it printed on either stream."""
        ended = new.run("move", "--from", str(old.status), "--status", str(new.status))
        return ended.returncode, ended.stdout.splitlines(), ended.stderr

    def test_each_group_goes_on_behind_its_last_term(self) -> None:
        old, new = self.serve(), self.serve()
        ring, moved = Ring.parse(old.ports), Ring.parse(new.ports)
        last = {f"group-{number}": number for number in (1, 2, 7, 41)}
        for group, term in last.items():
            ring.stand(group, term, 10, term % 3 + 1)
            while any(ring.latest(group, node) is None for node in (1, 2, 3)):
                time.sleep(0.01)
        # One was moved before, and another one by somebody else.
        moved.campaign("group-2", 2)
        code, lines, _ = self.move(old, new)
        self.assertEqual((code, lines[-1]), (0, "moved 4"))
        for line, (group, term) in zip(lines, sorted(last.items())):
            self.assertRegex(line, rf"\A{group} term {term + 1} leader [1-3] \d+\Z")
            for node in (1, 2, 3):
                self.assertEqual(moved.latest(group, node).term, term + 1)
        before = status.status(new.status)["nodes"]
        self.assertEqual(self.move(old, new), (0, lines, ""))
        self.assertEqual([node["stands"] for node in status.status(new.status)["nodes"]],
                         [node["stands"] for node in before])
        ring.close()
        moved.close()

    def test_what_is_no_other_ring(self) -> None:
        served, empty = self.serve(), self.serve()
        for host in ("", "127.0.0.1:", "localhost:"):
            ended = served.run("move", "--from", f"{host}{served.status}")
            self.assertEqual((ended.returncode, ended.stdout), (2, ""))
            self.assertIn("the new ring itself", ended.stderr)
        self.assertEqual(self.move(empty, served), (0, ["moved 0"], ""))
        empty.kill()
        self.assertEqual(self.move(empty, served)[0], 3)
        empty.start()

    def test_lockers_go_on_at_a_full_ring_and_in_the_new_one(self) -> None:
        old, new = self.serve(), self.serve()
        lockers = Lockers(old.ports)
        self.addCleanup(lockers.end)
        lockers.await_terms(60)
        fill(Ring.parse(old.ports))
        # What they retire makes room for them.
        lockers.await_terms(len(lockers.terms) + 20)
        here, there = old.first, new.first
        old.kill()
        # At other ports both rings have no clients.
        old.first = there + 100
        self.assertTrue(old.start())
        last = terms(old.status, 5.0)["red"]
        self.assertEqual(self.move(old, new)[0], 0)
        old.kill()
        new.kill()
        new.first = here
        self.assertTrue(new.start())
        lockers.await_terms(len(lockers.terms) + 20)
        self.assertEqual(lockers.faults, [])
        self.assertEqual(lockers.terms, sorted(set(lockers.terms)))
        self.assertTrue(last >= 60 and last + 1 not in lockers.terms)


def fill(ring: Ring) -> None:
    """Stands at all nodes in turn, in terms that nobody retires, until one has no room."""
    with ring:
        for term in itertools.count(1):
            try:
                ring.stand("filler", term, 0, term % ring.nodes + 1)
            except (Full, LimitReached):
                return


class Lockers:
    """Three that take one lock in turn, and the terms in which they held it."""

    def __init__(self, ports: str) -> None:
        self.terms: list[int] = []
        self.faults: list[Exception] = []
        self.ends = False
        self.threads = [threading.Thread(target=self.run, args=(Ring.parse(ports, timeout=0.5),)) for _ in range(3)]
        for thread in self.threads:
            thread.start()

    def run(self, ring: Ring) -> None:
        try:
            lock = Lock(ring, "red", wait=180.0)
            while not self.ends:
                with lock as held:
                    self.terms.append(held.term)
        except Exception as fault:
            self.faults.append(fault)

    def await_terms(self, count: int) -> None:
        until = time.monotonic() + 60.0
        while len(self.terms) < count and not self.faults:
            if time.monotonic() > until:
                raise AssertionError(f"{len(self.terms)} terms in a minute")
            time.sleep(0.01)

    def end(self) -> None:
        self.ends = True
        for thread in self.threads:
            thread.join()


if __name__ == "__main__":
    unittest.main()
