"""A connection over which lines go either way, and what ends a wait."""
import select
import socket
import threading
import time
from typing import Protocol

from .errors import Cancelled, Resigned
from .host import OWN, look_up

# So often is looked whether a wait was ended, in seconds.
SLICE = 0.05
# No line of a beacon, and none of a node, is longer, in bytes.
LONGEST = 300


class Link(Protocol):
    """A connection to a port of this host."""
    async def send(self, text: bytes) -> None: ...

    async def line(self, seconds: float) -> bytes | None:
        """The next line, within so many seconds: else `TimeoutError`. None where the other side ended."""

    def close(self) -> None: ...


class Stop:
    """What ends the waits of a thread: `cancel`, if any, or that what it waits for is over."""

    def __init__(self, over: threading.Event | None = None, cancel: threading.Event | None = None) -> None:
        self.over, self.cancel = over, cancel

    def check(self) -> None:
        if self.cancel is not None and self.cancel.is_set():
            raise Cancelled("the wait was cancelled")
        if self.over is not None and self.over.is_set():
            raise Resigned("it resigned while it waited")

    def sleep(self, seconds: float) -> None:
        until = time.monotonic() + seconds
        self.check()
        while (left := until - time.monotonic()) > 0:
            if self.over is None:
                time.sleep(left if self.cancel is None else min(left, SLICE))
            else:
                self.over.wait(left if self.cancel is None else min(left, SLICE))
            self.check()

    def readable(self, connection: socket.socket, seconds: float) -> None:
        """Waits until something may be read. `TimeoutError` where nothing may in time."""
        until, is_bound = time.monotonic() + seconds, self.over is not None or self.cancel is not None
        while True:
            self.check()
            left = max(0.001, until - time.monotonic())
            if is_readable(connection, min(left, SLICE) if is_bound else left):
                return
            if time.monotonic() >= until:
                raise TimeoutError("timed out")


def connect(host: str, port: int, seconds: float) -> socket.socket:
    """A connection to who listens there, within so many seconds. `OSError` where nobody does at any of its addresses: each has
    its part of the time that those before it left."""
    until, faults = time.monotonic() + seconds, list[OSError]()
    addresses = look_up(host, seconds)
    for place, each in enumerate(addresses):
        try:
            return connect_to(each, port, max(0.001, (until - time.monotonic()) / (len(addresses) - place)))
        except OSError as fault:
            faults.append(fault)
    raise faults[-1]


def connect_to(host: str, port: int, seconds: float) -> socket.socket:
    connection = socket.create_connection((host, port), seconds)
    try:
        # Where nobody listens, the system may join a connection to itself, which would answer all that is sent.
        if connection.getsockname() == connection.getpeername():
            raise ConnectionRefusedError("nobody listens")
    except OSError:
        connection.close()
        raise
    return connection


def is_readable(connection: socket.socket, seconds: float) -> bool:
    if not hasattr(select, "poll"):
        return bool(select.select([connection], [], [], seconds)[0])
    waits = select.poll()
    waits.register(connection, select.POLLIN)
    return bool(waits.poll(seconds * 1000))


class Lines:
    """What was received, line by line."""

    def __init__(self) -> None:
        self.front = b""

    def take(self) -> bytes | None:
        """The next line, without its end; None where it is not whole. `ConnectionError` where it is too long, so that who sends
        no end of a line has nobody wait for ever."""
        line, end, rest = self.front.partition(b"\n")
        if len(line) > LONGEST:
            raise ConnectionError("a line is too long")
        if not end:
            return None
        self.front = rest
        return line


class BlockingLink:
    """One that a thread waits for."""

    def __init__(self, port: int, seconds: float, stop: Stop) -> None:
        self.stop, self.lines = stop, Lines()
        self.connection = connect(OWN, port, max(0.001, seconds))

    async def send(self, text: bytes) -> None:
        self.connection.sendall(text)

    async def line(self, seconds: float) -> bytes | None:
        until = time.monotonic() + seconds
        while (line := self.lines.take()) is None:
            self.stop.readable(self.connection, until - time.monotonic())
            part = self.connection.recv(4096)
            if not part:
                return None
            self.lines.front += part
        return line

    def close(self) -> None:
        self.connection.close()
