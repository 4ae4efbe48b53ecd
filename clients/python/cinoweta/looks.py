"""Whether locks are lost: all of a ring are looked at together."""
import logging
import threading
import time
from typing import TYPE_CHECKING

from . import forks
from .errors import NoAnswer, OutOfMemory

if TYPE_CHECKING:
    from .asking import Asking
    from .kinds import Led
    from .locking import Locking

# Each lock is looked at so often, and all together for so long at most, in seconds; one node is waited for so long, so
# that another one may answer.
EVERY, AT_MOST, OF_ONE = 1.0, 1.0, 0.7
LOG = logging.getLogger("cinoweta")


class Looks:
    """Asks the ring for all locks that are held with it, of each once a second at most. What it asks over waits for no
    other question."""

    def __init__(self, ring: "Asking") -> None:
        self.ring, self.asks, self.gate = ring, ring.within(OF_ONE), ring.new_gate()
        # Who was asked for longest ago first.
        self.held: dict["Locking", None] = {}
        # An event loop may begin a task at once, within it.
        self.mutex, self.is_going_on = threading.RLock(), False
        forks.register(self)

    def forget(self) -> None:
        self.held, self.mutex, self.is_going_on = {}, threading.RLock(), False

    def add(self, lock: "Locking") -> None:
        with self.mutex:
            self.held[lock] = None
            if lock.on_lost is not None and not self.is_going_on:
                # Where the system gives no thread the next lock tries again.
                self.ring.begin(self.go_on())
                self.is_going_on = True

    def remove(self, lock: "Locking") -> None:
        with self.mutex:
            self.held.pop(lock, None)

    def goes_on(self) -> bool:
        """Whether a lock that is held wants to be told of its loss."""
        with self.mutex:
            self.is_going_on = any(lock.on_lost is not None for lock in self.held)
            return self.is_going_on

    async def go_on(self) -> None:
        """Looks once a second as long as that is wanted."""
        while self.goes_on():
            await self.asks.sleep(EVERY)
            try:
                await self.look()
            except Exception:
                # It goes on: nobody else does so for the locks.
                LOG.warning("whether locks are lost", exc_info=True)

    async def look(self, *first: "Locking") -> None:
        """Looks at these, and then at all others as far as there is time; not at one that was looked at within a second.
        Each one gives up whose time is over, asked for or not. The first fault is raised behind all of that."""
        lost, faults = list["Locking"](), list[Exception]()
        try:
            async with self.gate:
                begun = time.monotonic()
                self.asks.deadline = begun + AT_MOST
                with self.mutex:
                    held = [*dict.fromkeys([*first, *self.held])]
                stale = [lock for lock in held if begun - lock.asked >= EVERY]
                if stale:
                    # Of each lock each node is asked in turn: one that lags behind tells of no loss.
                    self.asks.place = stale[0].node % self.asks.nodes + 1
                try:
                    for lock in stale:
                        try:
                            if time.monotonic() <= self.asks.deadline and await self.is_lost(lock, stale):
                                lost.append(lock)
                        except Exception as fault:
                            faults.append(fault)
                finally:
                    self.asks.close()
                    lost += [lock for lock in held if lock.gives_up()]
            if faults:
                raise faults[0]
        finally:
            for lock in lost:
                lock.tell_loss()

    async def is_lost(self, lock: "Locking", others: list["Locking"]) -> bool:
        """Whether the lock was held and is lost now. Where no node answers, or one finds no memory to, nothing is known of
        the others either."""
        begun = time.monotonic()
        if begun - lock.asked < EVERY:
            return False
        lock.node = self.asks.place
        try:
            known = await self.latest(lock.group)
        except (NoAnswer, OutOfMemory):
            for other in others:
                other.asked = time.monotonic()
            return False
        except Exception:
            # What is no answer tells of no term.
            self.put_behind(lock)
            if lock.gives_up():
                return True
            raise
        self.put_behind(lock)
        if known is None or known.term < lock.led:
            # It has not heard of this lock's term yet.
            return False
        lock.told = begun
        return lock.ends_below(known.term)

    async def latest(self, group: str) -> "Led | None":
        """What a node knows, or the next one, where that does not answer."""
        try:
            return await self.asks.do_latest(group)
        except NoAnswer:
            return await self.asks.do_latest(group)

    def put_behind(self, lock: "Locking") -> None:
        """Has all others be asked for before it is so again."""
        lock.asked = time.monotonic()
        with self.mutex:
            if lock in self.held:
                self.held[lock] = self.held.pop(lock)
