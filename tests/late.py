"""Clients that are left once they are silent for a second, and tests that mind how late the machine is."""

import time
from collections.abc import Callable

from programs import Client, Ring, RingTest

# How often a visit is made at most that a late machine may spoil, and for how many seconds its clients may be silent.
TRIES = 20
SILENT = 1.0


class Late(Exception):
    """A client was left that had been silent for as long as it may be."""


class HastyClient(Client):
    """A client that is left once it is silent for a second, unless it `is_kept`: how long it was at most is known here."""

    is_kept = False

    def __init__(self, ring: Ring, node: int = 1) -> None:
        self.since = time.monotonic()
        super().__init__(ring.port_of(node), ring.is_over)

    def was_silent(self) -> bool:
        """Whether it may have been silent for a second."""
        return not self.is_kept and time.monotonic() - self.since >= SILENT

    def ask(self, line: str) -> str:
        """Raises `Late` where the session is over and the client may have been silent for a second."""
        now = time.monotonic()
        answer = super().ask(line)
        if answer:
            self.since = now
        elif self.was_silent():
            raise Late
        return answer


class LateTest(RingTest):
    """A test of clients that may be left since the machine is late."""

    def visit(self, visit: Callable[[], None]) -> None:
        """Makes the visit, and once more where the machine was late."""
        for _ in range(TRIES):
            try:
                visit()
                return
            except Late:
                pass
        self.fail("the machine is late each time")

    def finish_all(self, ring: Ring, sessions: int) -> None:
        """Has each node the sessions that it has not had yet, of so many."""
        for node in range(1, ring.nodes + 1):
            self.finish(ring, node, sessions - ring.state(node)["sessions"]["begun"])
