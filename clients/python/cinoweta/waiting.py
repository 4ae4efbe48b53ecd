"""Who waits for a lock on the ring's host asks the holder's beacon whether it is there, and keeps a place in its line."""
import contextlib
import errno
import os
import threading
import time

from . import forks
from .asking import Asking
from .beacon import LONGEST, PAUSE, port_of
from .kinds import Led, Holder
from .link import BlockingLink, Link, Stop
from .steps import at_once

# Behind a fault a beacon is asked again so soon at first, in seconds: of a process that ends, what it listens at may be
# closed a moment later than what it was connected to.
SOON = 0.002
# Of a fault that says that something is wanting here, and nothing of who is asked.
WANTING = {errno.EMFILE, errno.ENFILE, errno.ENOBUFS, errno.ENOMEM, errno.EADDRNOTAVAIL}
# Who leaves a client sooner, in seconds, is the beacon of another bid.
SOONER = 0.4
# So often a beacon is asked over a connection that is kept, in seconds.
EVERY = 1.0
# So long who resigned, and who does not come next, leave the next term to who does, in seconds.
GRACE = 0.2
# What is told at last: whose turn it is, that the connection ended, that the beacon does not answer, that the time is over.
# And that it keeps this one in line.
TURN, ENDED, GONE, OVER, KEPT = "turn", "ended", "gone", "over", "kept"


class Here:
    """What a thread asks beacons over."""

    async def link(self, port: int, seconds: float) -> Link:
        return BlockingLink(port, seconds, Stop())

    async def sleep(self, seconds: float) -> None:
        time.sleep(seconds)


async def ask(asks: Asking | Here, bid: int, line: str, seconds: float) -> list[str]:
    """The lines that the beacon of this bid answers to one within so many seconds; none where it does not."""
    return (await answer(asks, bid, line, seconds))[0]


async def is_seen(asks: Asking | Here, bid: int, seconds: float) -> bool:
    """Whether who stood with this bid answers within so many seconds, or could not be asked for so long."""
    lines, is_asked = await answer(asks, bid, str(bid), seconds)
    return lines == [str(bid)] or not is_asked


async def answer(asks: Asking | Here, bid: int, line: str, seconds: float) -> tuple[list[str], bool]:
    """The lines that the beacon of this bid answers to one within so many seconds, and whether it was asked for so long. Behind
    a fault that does not say that there is none, it is asked again."""
    until, pause, is_asked = time.monotonic() + seconds, SOON, True
    while True:
        try:
            return await ask_once(asks, bid, line, until), True
        except (ConnectionRefusedError, OverflowError):
            # A bid that no beacon made may name a port that there is not, which is an OverflowError.
            return [], True
        except OSError as fault:
            is_asked = is_asked and fault.errno not in WANTING
            if time.monotonic() + pause > until:
                return [], is_asked
        await asks.sleep(pause)
        pause = min(2 * pause, PAUSE)


async def ask_once(asks: Asking | Here, bid: int, line: str, until: float) -> list[str]:
    """The same lines, over one connection."""
    # From here on, so that a pause of this process makes no end an early one.
    begun, lines = time.monotonic(), list[str]()
    link = await asks.link(port_of(bid), until - begun)
    try:
        await link.send(f"{line}\n".encode())
        while len(lines) <= LONGEST:
            told = await link.line(max(0.001, until - time.monotonic()))
            if told is None:
                break
            lines.append(told.decode("utf-8", "replace"))
            if line.split(" ")[0] != "waiters":
                break
    finally:
        link.close()
    if not lines and time.monotonic() - begun >= SOONER:
        raise ConnectionError("the beacon waited no longer")
    return lines


def is_there(bid: int, seconds: float) -> bool:
    """`is_seen`, for a thread."""
    return at_once(is_seen(Here(), bid, seconds))


async def holder_of(asks: Asking | Here, known: Led, seconds: float) -> Holder | None:
    """Who leads so, where it holds a lock and answers within so many seconds."""
    bid = known.leader.bid
    words = "".join(await ask(asks, bid, f"holder {bid}", seconds)).split(" ", 2)
    if len(words) < 3 or words[0] != str(bid) or not words[1].isdecimal():
        return None
    return Holder(known.term, known.leader, int(words[1]), words[2])


class Handed:
    """Whose turn it is next, where this process resigned a moment ago, for each lock."""

    def __init__(self) -> None:
        self.mutex = threading.Lock()
        self.turns: dict[tuple[str, int, str], tuple[int, int, float]] = {}
        forks.register(self)

    def forget(self) -> None:
        """A process that was forked resigned nothing."""
        self.mutex, self.turns = threading.Lock(), {}

    def put(self, key: tuple[str, int, str], first: int, term: int) -> None:
        now = time.monotonic()
        with self.mutex:
            self.turns = {each: turn for each, turn in self.turns.items() if now - turn[2] < GRACE}
            if first:
                self.turns[key] = first, term, now

    def get(self, key: tuple[str, int, str]) -> tuple[int, int]:
        """The bid of who comes next, and the term that was resigned; 0 for nobody."""
        with self.mutex:
            first, term, when = self.turns.pop(key, (0, 0, 0.0))
        return (first, term) if time.monotonic() - when < GRACE else (0, 0)


HANDED = Handed()


class Line:
    """A place in the line of one beacon after the other, by a connection that is kept."""

    def __init__(self, asks: Asking, own: int, text: str) -> None:
        # Since when it waits, by the clock that all processes of a host tell alike: nothing but the order rests on it.
        self.asks, self.own, self.text, self.since = asks, own, text, time.time_ns() // 1_000_000
        # The beacon's bid, and the place that it told last; 0 for none.
        self.bid, self.place = 0, 0
        self.link: Link | None = None

    async def join(self, bid: int, seconds: float) -> str:
        """`KEPT` where the beacon of this bid keeps this one in line, `GONE` where it does not answer within so many seconds;
        else `ENDED`."""
        if self.link is not None and self.bid == bid:
            return KEPT
        self.leave()
        self.place, until = 0, time.monotonic() + seconds
        with contextlib.suppress(OSError, OverflowError):
            self.link, self.bid = await self.asks.link(port_of(bid), seconds), bid
            await self.link.send(f"wait {bid} {self.own} {self.since} {os.getpid()} {self.text}\n".encode())
            told = await self.link.line(max(0.001, until - time.monotonic()))
            if told is not None and self.is_placed(told.decode("utf-8", "replace")):
                return KEPT
        self.leave()
        return GONE if time.monotonic() >= until else ENDED

    def is_placed(self, told: str) -> bool:
        """Whether that tells the place of this one."""
        word, _, place = told.partition(" ")
        if word != "place" or not (place.isascii() and place.isdecimal()):
            return False
        self.place = int(place[:9])
        return True

    async def hear(self, patience: float, until: float) -> str:
        """What the beacon tells at last, until then: `TURN`, or `after BID`; `ENDED`, `GONE`, `OVER` where it tells neither.
        It is gone where it does not answer for `patience` seconds."""
        asked, following = 0.0, time.monotonic() + EVERY
        while self.link is not None:
            now = time.monotonic()
            if now >= until:
                # Whatever it tells.
                return OVER
            if not asked and now >= following:
                asked = now
                with contextlib.suppress(OSError):
                    await self.link.send(f"{self.bid}\n".encode())
            rest = min(until, asked + patience if asked else following) - now
            try:
                told = await self.link.line(max(0.001, rest))
            except TimeoutError:
                if asked and time.monotonic() >= asked + patience:
                    return GONE
                continue
            except OSError:
                break
            line = ENDED if told is None else told.decode("utf-8", "replace")
            if line == str(self.bid):
                asked, following = 0.0, time.monotonic() + EVERY
            elif not self.is_placed(line):
                return line if line == TURN or line.startswith("after ") else ENDED
        return ENDED

    def leave(self) -> None:
        if self.link is not None:
            self.link.close()
            self.link = None
