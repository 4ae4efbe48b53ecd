"""The same in an event loop, over asyncio streams. What is cancelled leaves nothing held.

    from cinoweta.aio import AsyncLock, AsyncRing
    async with AsyncLock(AsyncRing(7101, 7103), "jobs") as held:
        while not await held.is_lost():
            ...  # send held.term with each write, as a fencing number
"""
import asyncio
import contextlib
import os
import socket
import threading
import time
from collections.abc import AsyncIterator, Callable, Coroutine
from typing import Any, TypeVar

from . import asking, election, status
from .asking import LEAST, Asking, ports_of
from .election import KEEP, Campaign
from .errors import NoAnswer, Resigned
from .host import OWN
from .kinds import Election, Holder, Leader, Led, Waiter
from .link import Lines, Link
from .locking import Locking, Tell, find_holder, find_waiters
from .session import LONGEST

Result = TypeVar("Result")
# So often is looked whether a wait was ended by `resign`, in seconds.
SLICE = 0.1


async def within(steps: Coroutine[Any, Any, Result], seconds: float) -> Result:
    """What these steps come to; `TimeoutError` where that takes longer."""
    try:
        return await asyncio.wait_for(steps, seconds)
    except asyncio.TimeoutError:
        # Before 3.11 that is a class of its own.
        raise TimeoutError("timed out") from None


class Stream:
    """A connection, over which lines go either way."""

    def __init__(self, reader: asyncio.StreamReader, writer: asyncio.StreamWriter, port: int) -> None:
        self.reader, self.writer, self.port, self.lines, self.process = reader, writer, port, Lines(), os.getpid()

    @classmethod
    async def open(cls, host: str, port: int, seconds: float) -> "Stream":
        reader, writer = await within(asyncio.open_connection(host, port), seconds)
        # Where nobody listens, the system may join a connection to itself, which would answer all that is sent.
        if writer.get_extra_info("sockname") == writer.get_extra_info("peername"):
            writer.close()
            raise ConnectionRefusedError("nobody listens")
        return cls(reader, writer, port)

    async def send(self, text: bytes) -> None:
        self.writer.write(text)

    async def line(self, seconds: float) -> bytes | None:
        until = time.monotonic() + seconds
        while (line := self.lines.take()) is None:
            part = await within(self.reader.read(4_096), max(0.001, until - time.monotonic()))
            if not part:
                return None
            self.lines.front += part
        return line

    async def answer(self, line: str, seconds: float) -> str:
        """The answer to a line. `OSError` where none came, or more than that."""
        self.writer.write(line.encode() + b"\n")
        told = await self.line(seconds)
        if told is None or self.lines.front or len(told) > LONGEST:
            raise ConnectionError("the session broke off" if told is None else "more than one line was answered")
        return told.decode("ascii", "replace")

    def close(self) -> None:
        if self.process == os.getpid():
            # It ends though a process that was forked has the connection too.
            with contextlib.suppress(OSError):
                self.writer.get_extra_info("socket").shutdown(socket.SHUT_RDWR)
        # A loop that is over has closed it.
        with contextlib.suppress(RuntimeError):
            self.writer.close()


class AsyncRing(Asking):
    """A `Ring` whose questions are awaited. It belongs to the event loop in which it is used first."""

    def __init__(self, first: int, last: int, *, host: str = OWN, timeout: float = 10.0,
                 status: int | None = None) -> None:
        super().__init__(first, last, host=host, timeout=timeout, status=status)
        self.session: Stream | None = None
        # Whether an answer is waited for, and what ends the session where nothing is asked for a while.
        self.is_asked = False
        self.idle: asyncio.TimerHandle | None = None
        self.over: threading.Event | None = None
        self.tasks: set["asyncio.Task[Any]"] = set()

    @classmethod
    def parse(cls, text: str, *, timeout: float = 10.0, status: int | None = None) -> "AsyncRing":
        """The ring of a text as `7101-7103`, or as `10.0.0.5:7101-7103` or `[fd00::5]:7101-7103` where it is one of
        another host."""
        host, first, last = ports_of(text)
        return cls(first, last, host=host, timeout=timeout, status=status)

    async def stand(self, group: str, term: int, bid: int, node: int = 1) -> None:
        await self.do_stand(group, term, bid, node)

    async def who(self, group: str, term: int, node: int | None = None) -> Leader | None:
        return await self.do_who(group, term, node)

    async def latest(self, group: str, node: int | None = None) -> Led | None:
        return await self.do_latest(group, node)

    async def retire(self, group: str, floor: int, node: int) -> int:
        return await self.do_retire(group, floor, node)

    async def campaign(self, group: str, gone: int = 0, rank: int = 0, node: int | None = None, terms: int = 3,
                       seconds: float = 5.0, keep: int = KEEP) -> Election:
        made = Campaign(self, group, gone, election.random_bid(rank), node)
        return await election.campaign(self, made, terms, seconds, keep)

    def watch(self, group: str, after: int = 0, wait: float | None = None) -> AsyncIterator[Led]:
        return election.watch(self, group, after, wait)

    async def ask(self, line: str, node: int | None = None) -> str:
        return await self.do_ask(line, node)

    def new_gate(self) -> asyncio.Lock:
        return asyncio.Lock()

    async def ask_once(self, line: str, place: int, seconds: float) -> str:
        port, until = self.first + place - 1, time.monotonic() + seconds
        if self.session is not None and self.session.port != port:
            self.close()
        if self.session is None:
            self.session = await Stream.open(self.host, port, seconds)
        if self.idle is not None:
            self.idle.cancel()
        self.is_asked = True
        try:
            answer = await self.session.answer(line, max(LEAST, until - time.monotonic()))
        except BaseException:
            # A late answer is never read as that of another line.
            self.is_asked = False
            self.close()
            raise
        self.is_asked = False
        self.idle = asyncio.get_running_loop().call_later(asking.IDLE, self.close)
        return answer

    async def sleep(self, seconds: float) -> None:
        until = time.monotonic() + seconds
        self.check()
        while (left := until - time.monotonic()) > 0:
            await asyncio.sleep(left if self.over is None else min(left, SLICE))
            self.check()

    def check(self) -> None:
        if self.over is not None and self.over.is_set():
            raise Resigned("it resigned while it waited")

    async def fetch(self, path: str, seconds: float) -> tuple[int, str]:
        if self.status is None:
            raise NoAnswer(f"{self.host}: no port of ringd --status is told")
        try:
            return await self.unless_over(self.page(self.status, path), seconds)
        except (OSError, ValueError) as fault:
            raise NoAnswer(f"{self.where(path)}: {fault or type(fault).__name__}") from None

    async def unless_over(self, steps: Coroutine[Any, Any, Result], seconds: float) -> Result:
        """What these steps come to within so many seconds, unless its waits are over before."""
        task, until = asyncio.ensure_future(steps), time.monotonic() + seconds
        try:
            while not task.done():
                self.check()
                left = until - time.monotonic()
                if left <= 0:
                    raise TimeoutError("timed out")
                await asyncio.wait({task}, timeout=left if self.over is None else min(left, SLICE))
            return task.result()
        finally:
            task.cancel()

    async def page(self, port: int, path: str) -> tuple[int, str]:
        reader, writer = await asyncio.open_connection(self.host, port)
        try:
            writer.write(status.question(self.host, port, path))
            told = b""
            while len(told) <= status.LONGEST and not status.is_whole(told) and (part := await reader.read(1 << 16)):
                told += part
        finally:
            writer.close()
        return status.read(told)

    async def link(self, port: int, seconds: float) -> Link:
        return Listening(await Stream.open(OWN, port, seconds), self)

    async def aside(self, act: Callable[[], Result]) -> Result:
        return await asyncio.to_thread(act)

    def within(self, seconds: float) -> "AsyncRing":
        ring = AsyncRing(self.first, self.ports[-1], host=self.host, timeout=min(self.timeout, seconds), status=self.status)
        ring.place, ring.over = self.place, self.over
        return ring

    def until(self, over: threading.Event, cancel: threading.Event | None) -> "AsyncRing":
        ring = self.within(self.timeout)
        ring.over = over
        return ring

    def begin(self, steps: Coroutine[Any, Any, object]) -> None:
        task = asyncio.get_running_loop().create_task(steps)
        self.tasks.add(task)
        task.add_done_callback(self.tasks.discard)

    def close(self) -> None:
        """Ends the session, if one is open, unless another task asks over it: then it ends where it is idle."""
        if self.is_asked:
            return
        session, self.session = self.session, None
        if self.idle is not None:
            self.idle.cancel()
        if session is not None:
            session.close()

    async def __aenter__(self) -> "AsyncRing":
        return self

    async def __aexit__(self, *_fault: object) -> None:
        self.close()


class Listening:
    """A connection to a beacon, whose waits end with that of the ring."""

    def __init__(self, stream: Stream, ring: AsyncRing) -> None:
        self.stream, self.ring = stream, ring

    async def send(self, text: bytes) -> None:
        await self.stream.send(text)

    async def line(self, seconds: float) -> bytes | None:
        until = time.monotonic() + seconds
        while True:
            self.ring.check()
            left = max(0.001, until - time.monotonic())
            try:
                return await self.stream.line(min(left, SLICE))
            except TimeoutError:
                if time.monotonic() >= until:
                    raise

    def close(self) -> None:
        self.stream.close()


async def holder(ring: AsyncRing, group: str, patience: float = 5.0, *, across_hosts: bool | None = None) -> Holder | None:
    """Who holds the lock of the group and is seen within `patience` seconds, or None."""
    return await find_holder(ring, group, patience, across_hosts)


async def waiters(ring: AsyncRing, group: str, patience: float = 5.0) -> list[Waiter]:
    """Who waits for the lock of the group on the ring's host, in order. `NotListed` where they can't be listed."""
    return await find_waiters(ring, group, patience)


class AsyncLock(Locking):
    """A `Lock` that is awaited: `async with AsyncLock(ring, "jobs") as held:`. It is seen by the same clients. A task that is
    cancelled while it waits holds nothing. `on_lost` is called in the event loop."""

    def __init__(self, ring: AsyncRing, group: str, rank: int = 0, patience: float = 5.0, wait: float | None = None,
                 text: str = "", keep: int = KEEP, *, across_hosts: bool | None = None, give_up: float | None = None,
                 on_lost: "Callable[[AsyncLock], object] | None" = None) -> None:
        super().__init__(ring, group, rank, patience, wait, text, keep, across_hosts, give_up, on_lost)

    async def acquire(self, *, tell: Tell | None = None) -> None:
        """Waits until this process leads, and sets `term`; `tell` is told for whom it waits. Raises `Resigned` where another
        task resigns meanwhile."""
        await self.do_acquire(tell, None)

    async def is_lost(self) -> bool:
        """Whether this process does not hold the lock any more, as `Lock.is_lost`."""
        return await self.do_look()

    async def __aenter__(self) -> "AsyncLock":
        await self.acquire()
        return self

    async def __aexit__(self, *_fault: object) -> None:
        self.resign()
