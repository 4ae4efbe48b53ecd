"""What may be asked of a ring, in steps: `Ring` takes them at once, `AsyncRing` in an event loop."""
import os
import re
import threading
import time
from collections.abc import Callable, Coroutine
from typing import Any, NoReturn, Protocol, TypeVar

from . import status as told
from .errors import FAILED, AlreadyStands, NoAnswer, Retired, WrongRing, refusal
from .host import OWN, address, require, within_brackets
from .kinds import Leader, Led
from .link import Link
from .looks import Looks

Result = TypeVar("Result")
# A node takes so many Stands. No more of them that got no answer are remembered.
STANDS = 1_024
# A session and its answer are waited for so long, in seconds, before another node is asked, the last ones so long at
# least.
PATIENCE, LEAST = 3.0, 0.05
# A session over which nothing was asked for so long is ended, in seconds: it holds one of the node's doors.
IDLE = 0.5
WHO = re.compile(r"leader (\d+) (\d+)")
LATEST = re.compile(r"term (\d+) leader (\d+) (\d+)")


class Gate(Protocol):
    """Within which one acts at a time."""
    async def __aenter__(self) -> None: ...

    async def __aexit__(self, kind: Any, fault: Any, trace: Any, /) -> None: ...


class Asking:
    """A ring, and what may be asked of it; how a step waits, its kinds say."""

    def __init__(self, first: int, last: int, *, host: str = OWN, timeout: float = 10.0,
                 status: int | None = None) -> None:
        if not 1 <= first < last <= 65_535 or last - first > 15:
            raise WrongRing(f"{first}-{last}: the ports of 2 to 16 nodes are 1 to 65,535")
        if status is not None and not 1 <= status <= 65_535:
            raise WrongRing(f"{status}: the port of ringd --status is 1 to 65,535")
        self.host = require(host)
        self.first, self.nodes, self.timeout, self.status = first, last - first + 1, timeout, status
        self.ports = range(first, last + 1)
        self.place = 1
        # No question is waited for longer.
        self.deadline = float("inf")
        # Stands that this process sent, and that got no answer, or that of a failed device, the oldest first: each may
        # have been accepted.
        self.unanswered: dict[tuple[int, int, str], None] = {}
        # One question is asked at a time.
        self.gate = self.new_gate()

    def __repr__(self) -> str:
        status = "" if self.status is None else f", status={self.status}"
        return f"{type(self).__name__}({self.first}, {self.ports[-1]}, host={self.host!r}{status})"

    def new_gate(self) -> Gate:
        raise NotImplementedError

    def within(self, seconds: float) -> "Asking":
        """The same ring, over sessions of its own, and so that an answer is not waited for longer than that."""
        raise NotImplementedError

    def until(self, over: threading.Event, cancel: threading.Event | None) -> "Asking":
        """The same ring, over sessions of its own; its waits end with `Resigned` or `Cancelled` once one of these is set."""
        raise NotImplementedError

    def begin(self, steps: Coroutine[Any, Any, object]) -> None:
        """Has these steps taken beside others."""
        raise NotImplementedError

    async def ask_once(self, line: str, place: int, seconds: float) -> str:
        """The answer of this node within so many seconds, over the session that is open with it, or over a new one."""
        raise NotImplementedError

    def check(self) -> None:
        """Raises where its waits are over."""
        raise NotImplementedError

    async def sleep(self, seconds: float) -> None:
        raise NotImplementedError

    async def fetch(self, path: str, seconds: float) -> tuple[int, str]:
        """The status and the text of what the status port answers."""
        raise NotImplementedError

    async def link(self, port: int, seconds: float) -> Link:
        """A connection to a port of this host."""
        raise NotImplementedError

    async def aside(self, act: Callable[[], Result]) -> Result:
        """What an act gives that blocks for a moment."""
        raise NotImplementedError

    def close(self) -> None:
        """Ends the session, if one is open. The next question opens another one."""
        raise NotImplementedError

    @property
    def looks(self) -> "Looks":
        """What looks whether locks are lost."""
        # Of several threads that ask first all get that of one.
        made: Looks = self.__dict__.get("made_looks") or self.__dict__.setdefault("made_looks", Looks(self))
        return made

    def left(self) -> float:
        """How long questions may still be waited for, in seconds."""
        return self.deadline - time.monotonic()

    def where(self, path: str) -> str:
        return f"{address(self.host, self.status)}{path}"

    async def do_stand(self, group: str, term: int, bid: int, node: int) -> None:
        line = f"stand {group} {term} {bid}"
        try:
            answer = await self.do_ask(line, node)
        except AlreadyStands as fault:
            if fault.text != f"already {bid}" or (os.getpid(), node, line) not in self.unanswered:
                raise
            return
        except FAILED:
            self.remember(line, node)
            raise
        if answer != "stood":
            self.wrong(answer)

    async def do_who(self, group: str, term: int, node: int | None) -> Leader | None:
        answer = await self.do_ask(f"who {group} {term}", node)
        words = WHO.fullmatch(answer)
        if words is None:
            return None if answer == "none" else self.wrong(answer)
        return Leader(int(words[1]), int(words[2]))

    async def do_latest(self, group: str, node: int | None = None) -> Led | None:
        answer = await self.do_ask(f"latest {group}", node)
        words = LATEST.fullmatch(answer)
        if words is None:
            return None if answer == "none" else self.wrong(answer)
        return Led(int(words[1]), Leader(int(words[2]), int(words[3])))

    async def do_retire(self, group: str, floor: int, node: int) -> int:
        try:
            answer = await self.do_ask(f"retire {group} {floor}", node)
        except Retired as fault:
            if fault.floor < floor:
                raise
            return fault.floor
        return floor if answer == "retired" else self.wrong(answer)

    async def faults(self) -> list[str]:
        """A line for each node that is not well, by the status port."""
        return told.read_health(self.where("/health"), *await self.fetch("/health", 5.0))

    async def present(self, group: str, node: int) -> told.Sight | None:
        """The group's latest leader by this node, and whether it is present, by the status port."""
        path = told.leader_path(group, node)
        return told.read_leader(self.where(path), *await self.fetch(path, 5.0), none=404)

    async def held(self, group: str, led: Led, seconds: int) -> told.Sight | None:
        """The same as soon as who leads so is not present, or a greater term is known; None where neither came in time."""
        path = told.held_path(group, led.leader.node, led.term, seconds)
        return told.read_leader(self.where(path), *await self.fetch(path, seconds + 5.0), none=204)

    async def coming(self, group: str, above: int, seconds: int) -> Led | None:
        """The group's latest leader above this term, for which the status port waits so many seconds."""
        path = told.coming_path(group, above, seconds)
        led = told.read_leader(self.where(path), *await self.fetch(path, seconds + 5.0), none=204)
        return None if led is None else Led(led.term, Leader(led.node, led.bid))

    async def do_ask(self, line: str, node: int | None = None) -> str:
        """The answer to a line. `Refused` where it is a refusal, `NoAnswer` where none came in time."""
        if "\n" in line or line.strip(" \r") == "bye":
            raise ValueError("a question is one line, and no `bye`")
        if node is not None and not 1 <= node <= self.nodes:
            raise ValueError(f"node {node}: the ring has the nodes 1 to {self.nodes}")
        async with self.gate:
            answer = await self.answer_to(line, node)
        refused = refusal(answer)
        if refused is not None:
            raise refused
        return answer

    async def answer_to(self, line: str, node: int | None) -> str:
        until, pause = min(time.monotonic() + self.timeout, self.deadline), 0.05
        while True:
            place = node or self.place
            try:
                return await self.ask_once(line, place, max(LEAST, min(PATIENCE, until - time.monotonic())))
            except OSError as fault:
                self.close()
                if line.startswith("stand "):
                    self.remember(line, place)
                if node is None:
                    self.pass_by()
                if time.monotonic() + pause > until:
                    where = address(self.host, self.first + place - 1)
                    raise NoAnswer(f"{where}: {fault or type(fault).__name__}") from None
            except BaseException:
                if line.startswith("stand "):
                    self.remember(line, place)
                raise
            await self.sleep(pause)
            pause = min(2 * pause, 1.0)

    def pass_by(self) -> None:
        """Has the next node be asked where none is told."""
        self.place = self.place % self.nodes + 1

    def remember(self, line: str, place: int) -> None:
        """Remembers a Stand of this process that the node may have accepted."""
        self.unanswered[os.getpid(), place, line] = None
        if len(self.unanswered) > STANDS:
            del self.unanswered[next(iter(self.unanswered))]

    def wrong(self, answer: str) -> NoReturn:
        self.close()
        raise WrongRing(f"{answer!r} is no answer of a node")


def ports_of(text: str) -> tuple[str, int, int]:
    """The host and the ports of a text as `7101-7103`, or as `10.0.0.5:7101-7103` or `[fd00::5]:7101-7103` where they are those
    of another one."""
    words = re.fullmatch(r"(?:(.*):)?(\d{1,5})-(\d{1,5})", text, re.ASCII)
    if words is None:
        raise WrongRing(f"{text}: a ring is told as 7101-7103, or as 10.0.0.5:7101-7103")
    return OWN if words[1] is None else within_brackets(words[1]), int(words[2]), int(words[3])
