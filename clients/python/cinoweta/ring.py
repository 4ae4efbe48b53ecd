"""A ring, and what may be asked of it."""
import contextlib
import threading
import time
from collections.abc import Callable, Coroutine, Iterator
from typing import Any, TypeVar

from . import asking, election, forks, status
from .asking import LEAST, Asking, ports_of
from .election import KEEP, Campaign
from .host import OWN
from .kinds import Election, Leader, Led
from .link import BlockingLink, Link, Stop
from .session import Session
from .steps import at_once

Result = TypeVar("Result")


class BlockingGate:
    """One for threads. Who is within may enter once more."""

    def __init__(self) -> None:
        self.lock = threading.RLock()
        forks.register(self)

    async def __aenter__(self) -> None:
        self.lock.acquire()

    async def __aexit__(self, *_fault: object) -> None:
        self.lock.release()

    def forget(self) -> None:
        """It is free in a process that was forked, whoever was within."""
        self.lock = threading.RLock()


class Ring(Asking):
    """A ring: node 1 listens at the port `first` of `host`, an IP address or a name, the last one at `last`. Questions
    are asked of any node, over one session at a time, which ends where nothing is asked for half a second; where one
    breaks off, of the next node, until `timeout` seconds are over: `NoAnswer`. A Stand stays with its node. At the
    port `status` of the host, if any, `ringd --status` tells of the ring: then `NoLeader` says which node is not well.
    All may be called from several threads; one waits for the other. A process that is forked opens sessions of its own."""

    def __init__(self, first: int, last: int, *, host: str = OWN, timeout: float = 10.0,
                 status: int | None = None) -> None:
        super().__init__(first, last, host=host, timeout=timeout, status=status)
        self.gate: BlockingGate
        self.session: Session | None = None
        self.stop = Stop()

    @classmethod
    def parse(cls, text: str, *, timeout: float = 10.0, status: int | None = None) -> "Ring":
        """The ring of a text as `7101-7103`, or as `10.0.0.5:7101-7103` or `[fd00::5]:7101-7103` where it is one of
        another host."""
        host, first, last = ports_of(text)
        return cls(first, last, host=host, timeout=timeout, status=status)

    def stand(self, group: str, term: int, bid: int, node: int = 1) -> None:
        """The node stands for the group and term with this bid, for who asked. Else `Refused`: `AlreadyStands`, with
        the same bid too, is of another process, unless this Ring asked before and got no answer."""
        at_once(self.do_stand(group, term, bid, node))

    def who(self, group: str, term: int, node: int | None = None) -> Leader | None:
        """Who leads for the group and term, as far as a node knows."""
        return at_once(self.do_who(group, term, node))

    def latest(self, group: str, node: int | None = None) -> Led | None:
        """The greatest term of the group that has a leader, as far as a node knows, and that leader."""
        return at_once(self.do_latest(group, node))

    def retire(self, group: str, floor: int, node: int) -> int:
        """The node gives up the group's terms below `floor`, and so has room again. Its floor from then on: that one, or
        a greater one that it has already. Else `Refused`: `Undecided` where it knows no leader of that term or above."""
        return at_once(self.do_retire(group, floor, node))

    def campaign(self, group: str, gone: int = 0, rank: int = 0, node: int | None = None, terms: int = 3,
                 seconds: float = 5.0, keep: int = KEEP) -> Election:
        """The leader of the first term above `gone` that comes to have one, for which who calls stands where he may:
        at this node, or at any. `gone` is the term of the leader that is taken for gone; a later one is never put
        aside. The bid is of this call alone; its upper digits are `rank`, 0 to 999. Stands for so many `terms` at most
        and waits so many `seconds` in each: then `NoLeader`. `Refused` where no Stand is taken any more. Who leads
        retires the terms more than `keep` below its own at all nodes that do."""
        return self.campaign_with(election.random_bid(rank), group, gone, node, terms, seconds, keep)

    def campaign_with(self, bid: int, group: str, gone: int = 0, node: int | None = None, terms: int = 3,
                      seconds: float = 5.0, keep: int = KEEP) -> Election:
        """`campaign` with this bid, which no other process may have."""
        return at_once(election.campaign(self, Campaign(self, group, gone, bid, node), terms, seconds, keep))

    def watch(self, group: str, after: int = 0, wait: float | None = None) -> Iterator[Led]:
        """Each new leader of the group, with rising terms above `after`, for ever. Where the port `status` is told, that
        tells each at once; else it looks again and again, at most a second apart. Of several terms it tells the last. A
        ring that is away is waited for, `wait` seconds or for ever: then `NoAnswer`."""
        steps = election.watch(self, group, after, wait)

        async def following() -> Led:
            return await steps.__anext__()

        while True:
            yield at_once(following())

    def ask(self, line: str, node: int | None = None) -> str:
        """The answer to a line. `Refused` where it is a refusal, `NoAnswer` where none came in time."""
        return at_once(self.do_ask(line, node))

    def new_gate(self) -> BlockingGate:
        return BlockingGate()

    def begin(self, steps: Coroutine[Any, Any, object]) -> None:
        threading.Thread(target=at_once, args=(steps,), daemon=True).start()

    async def ask_once(self, line: str, place: int, seconds: float) -> str:
        port, until = self.first + place - 1, time.monotonic() + seconds
        if self.session is not None and (self.session.port != port or not self.session.is_usable()):
            self.close()
        if self.session is None:
            self.session = Session(self.host, port, seconds)
            # Where the system gives no thread it stays open.
            with contextlib.suppress(RuntimeError):
                threading.Thread(target=self.end_idle, args=(self.session,), daemon=True).start()
        return self.session.ask(line, max(LEAST, until - time.monotonic()), self.stop)

    def end_idle(self, session: Session) -> None:
        """Ends a session once nothing was asked over it for a while. No thread is left behind one that ended before."""
        while session.is_usable() and not session.over.wait(max(0.0, session.used + asking.IDLE - time.monotonic())):
            with self.gate.lock:
                if self.session is not session:
                    return
                if time.monotonic() - session.used >= asking.IDLE:
                    self.close()

    def check(self) -> None:
        self.stop.check()

    async def sleep(self, seconds: float) -> None:
        self.stop.sleep(seconds)

    async def fetch(self, path: str, seconds: float) -> tuple[int, str]:
        return status.ask(self.host, self.status or 0, path, seconds, self.stop)

    async def link(self, port: int, seconds: float) -> Link:
        return BlockingLink(port, seconds, self.stop)

    async def aside(self, act: Callable[[], Result]) -> Result:
        return act()

    def within(self, seconds: float) -> "Ring":
        """The same ring, over sessions of its own, and so that an answer is not waited for longer than that."""
        ring = Ring(self.first, self.ports[-1], host=self.host, timeout=min(self.timeout, seconds), status=self.status)
        ring.stop, ring.place = self.stop, self.place
        return ring

    def until(self, over: threading.Event, cancel: threading.Event | None) -> "Ring":
        ring = self.within(self.timeout)
        ring.stop = Stop(over, cancel)
        return ring

    def close(self) -> None:
        """Ends the session, if one is open, once no other thread asks over it. The next question opens another one."""
        with self.gate.lock:
            session, self.session = self.session, None
            if session is not None:
                session.close()

    def __enter__(self) -> "Ring":
        return self

    def __exit__(self, *_fault: object) -> None:
        self.close()
