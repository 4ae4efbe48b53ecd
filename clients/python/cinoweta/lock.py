"""A lock: who leads for a group holds it, in a term of its own.

Whoever waits for the lock has to see whether the leader is still there. Where all clients of a lock are on the ring's
host, who leads listens at a port of 127.0.0.1, which its bid names, and answers there with its bid. Across hosts it
keeps a session open with the node where it leads, and `ringd --status` tells whether it does.
"""
import threading
from collections.abc import Callable

from .beacon import Beacon
from .election import KEEP
from .kinds import Holder, Waiter
from .locking import Locking, Tell, find_holder, find_waiters
from .presence import Presence
from .process import run
from .ring import Ring
from .steps import at_once


def holder(ring: Ring, group: str, patience: float = 5.0, *, across_hosts: bool | None = None) -> Holder | None:
    """Who holds the lock of the group and is seen within `patience` seconds, or None. `across_hosts` is as for a Lock:
    `WrongRing` where it is held the other way, or nothing tells whether it is."""
    return at_once(find_holder(ring, group, patience, across_hosts))


def waiters(ring: Ring, group: str, patience: float = 5.0) -> list[Waiter]:
    """Who waits for the lock of the group on the ring's host, in order, as its holder's process tells within `patience`
    seconds; nobody where that does not. `NotListed` where it is held across hosts, or on another one than this."""
    return at_once(find_waiters(ring, group, patience))


class Lock(Locking):
    """The lock of a group: `with Lock(ring, "jobs") as held:` waits until this process leads, in `held.term`, which it
    sends with each write as a fencing number, and resigns at the end. A holder is gone once its process has ended, or
    did not answer for `patience` seconds, as a paused one. Waited is for `wait` seconds, or for ever: then
    `LockTaken`, or the fault of a ring that is away, full or failed; 0 tries once. A try that began has two seconds,
    and longer until a holder that does not answer is gone. Others are told `text`, and who waited longest comes next,
    but the greatest `rank` first. The terms more than `keep` below its own are retired. With `give_up` it is lost once
    no node answered for so many seconds. `on_lost` is called with the lock by a thread of the ring within some two
    seconds once it is lost, and not where it resigned. It must not block: that thread looks for all locks of the ring;
    and `sys.exit` ends nothing there. Where the ring has a `status` it is shown there, half a second late, in a door
    that all locks of a process at a node share, if another stays free.

    `across_hosts`, which is so with a ring of another host where it is not said, its clients may be on several hosts: all
    of them have to say so. The ring's `status` is needed, and a door of each node where this process holds any. A
    holder is gone once it was not present for two seconds, or `patience` where that is less: one that is paused,
    or cut off, once `ringd --idle` has ended its session.

    All may be called from several threads; one of them waits. A process that is forked holds nothing of its parent's:
    there `is_lost` is True, and `term` raises `NotHeld`."""

    def __init__(self, ring: Ring, group: str, rank: int = 0, patience: float = 5.0, wait: float | None = None,
                 text: str = "", keep: int = KEEP, *, across_hosts: bool | None = None, give_up: float | None = None,
                 on_lost: "Callable[[Lock], object] | None" = None) -> None:
        super().__init__(ring, group, rank, patience, wait, text, keep, across_hosts, give_up, on_lost)

    def acquire(self, *, tell: Tell | None = None, cancel: threading.Event | None = None) -> None:
        """Waits until this process leads, and sets `term`; `tell` is told for whom it waits. Raises `Cancelled` soon after
        `cancel` is set, and `Resigned` where another thread resigns meanwhile: it does not hold the lock then."""
        at_once(self.do_acquire(tell, cancel))

    def is_lost(self) -> bool:
        """Whether this process does not hold the lock any more: it resigned, a greater term is known, or it gave up. The
        ring is asked once a second at most, for all locks that are held with this Ring, and for a second at most. Where
        no node answers, or one finds no memory to, nothing is known to be lost."""
        return at_once(self.do_look())

    def run(self, command: list[str], grace: float) -> int | None:
        """Runs the command while this process leads: its exit status, or None where the lock was lost, and it was sent
        TERM, and after so many seconds KILL. Who waits is told of the end. Where standard input is no terminal it has a
        session of its own; behind a loss, or a signal that was handed on, all that it began has to have ended, too."""
        try:
            names = {"CINOWETA_GROUP": self.group, "CINOWETA_TERM": str(self.term)}
            return run(command, names, self.is_lost, grace)
        finally:
            self.resign()

    def see_off(self, sign: Beacon | Presence) -> None:
        if isinstance(sign, Presence):
            sign.await_end()

    def __enter__(self) -> "Lock":
        self.acquire()
        return self

    def __exit__(self, *_fault: object) -> None:
        self.resign()
