"""One session with a node."""
import contextlib
import os
import socket
import threading
import time

from . import forks
from .link import Stop, connect

# No answer of a node is as long, in bytes.
LONGEST = 256


class Session:
    """A line is sent, and one line is its answer. What fails ends the session, so that a late answer is never read as
    that of another line; so does another process that has it by a fork."""

    def __init__(self, host: str, port: int, seconds: float) -> None:
        self.port = port
        self.process, self.used, self.over = os.getpid(), time.monotonic(), threading.Event()
        self.connection = connect(host, port, seconds)
        self.connection.setsockopt(socket.IPPROTO_TCP, socket.TCP_NODELAY, 1)

    def ask(self, line: str, seconds: float, stop: Stop = Stop()) -> str:
        """The answer to a line, for which it waits so long. `OSError` where none came."""
        return self.ask_all([line], seconds, stop)[0]

    def ask_all(self, lines: list[str], seconds: float, stop: Stop = Stop()) -> list[str]:
        """The answers to these lines, which are sent at once. `OSError` where one did not come."""
        until = time.monotonic() + seconds
        answers = b""
        try:
            self.connection.settimeout(seconds)
            self.connection.sendall("".join(f"{line}\n" for line in lines).encode())
            while answers.count(b"\n") < len(lines):
                stop.readable(self.connection, until - time.monotonic())
                part = self.connection.recv(LONGEST * len(lines))
                answers += part
                if not part or len(answers) > LONGEST * len(lines):
                    raise ConnectionError("the session broke off")
            if not answers.endswith(b"\n") or answers.count(b"\n") > len(lines):
                raise ConnectionError("more than one line was answered")
        except BaseException:
            self.close()
            raise
        self.used = time.monotonic()
        return answers[:-1].decode("ascii", "replace").split("\n")

    def is_usable(self) -> bool:
        """Whether another line may be asked: by this process, and behind no fault."""
        return self.connection.fileno() >= 0 and self.process == os.getpid()

    def close(self) -> None:
        """Ends the session, which gives the node's door back. In a process that was forked it goes on: it is the parent's."""
        # There nobody waits for it, and a thread of the parent may have been at it.
        if self.process == os.getpid():
            # It ends though such a process has the connection too.
            with contextlib.suppress(OSError):
                self.connection.shutdown(socket.SHUT_RDWR)
            self.over.set()
        self.connection.close()


class Teller:
    """What has one session with a node, or none."""

    def __init__(self) -> None:
        self.session: Session | None = None
        forks.register(self)

    def forget(self) -> None:
        """In a process that was forked the session is that of the parent, whose own goes on."""
        self.end()

    def end(self) -> None:
        if self.session is not None:
            self.session.close()
            self.session = None
