"""A server of lines in place of a node, which answers as it is told."""
import contextlib
import os
import pathlib
import signal
import socket
import socketserver
import sys
import threading
import time
import unittest
from collections.abc import Callable

from cinoweta import Cancelled, Lock, Resigned

sys.path.append(str(pathlib.Path(__file__).resolve().parents[3] / "tests"))
from ports import Ports


def fork_idle(test: unittest.TestCase) -> None:
    """Forks a child that does nothing until the test has ended."""
    child = os.fork()
    if child == 0:
        time.sleep(30.0)
        os._exit(0)
    test.addCleanup(os.waitpid, child, 0)
    test.addCleanup(os.kill, child, signal.SIGKILL)


class Node(socketserver.ThreadingTCPServer):
    """A node whose every answer is given: by a function of the line, `None` of which ends the session unanswered."""
    daemon_threads = True
    allow_reuse_address = True

    def __init__(self, answer: Callable[[str], str | None], port: int = 0, host: str = "127.0.0.1") -> None:
        self.answer = answer
        self.lines: list[str] = []
        # The open sessions in which something stood, and how many may be open at once.
        self.present: set[Session] = set()
        self.doors = threading.Semaphore(1_000)
        self.address_family = socket.AF_INET6 if ":" in host else socket.AF_INET
        super().__init__((host, port), Session)
        threading.Thread(target=self.serve_forever, args=(0.01,), daemon=True).start()

    def stands(self) -> list[str]:
        return [line for line in self.lines if line.startswith("stand ")]

    def groups(self) -> list[str]:
        """For which somebody is present, in order; twice in two sessions."""
        return sorted(group for session in [*self.present] for group in [*session.groups])

    def handle_error(self, _request: object, _address: object) -> None:
        """A client may leave in the middle of an answer."""

    def end(self) -> None:
        self.shutdown()
        self.server_close()


class Session(socketserver.StreamRequestHandler):
    # Each answer goes out at once, as those of ringd.
    disable_nagle_algorithm = True

    def handle(self) -> None:
        self.groups: set[str] = set()
        with self.server.doors:
            self.serve()

    def serve(self) -> None:
        try:
            while line := self.rfile.readline(300).decode().rstrip("\n"):
                self.server.lines.append(line)
                answer = self.server.answer(line)
                if answer is None:
                    return
                words = line.split()
                if words[0] == "stand" and answer in ("stood", f"no 3 already {words[3]}"):
                    self.groups.add(words[1])
                    self.server.present.add(self)
                if answer == "resigned":
                    self.groups.discard(words[1])
                self.wfile.write(answer.encode() + b"\n")
        finally:
            self.server.present.discard(self)


def serve(*answers: Callable[[str], str | None], host: str = "127.0.0.1") -> list[Node]:
    """A node for each of these, at ports that lie side by side."""
    for _ in range(100):
        nodes: list[Node] = []
        with Ports(len(answers)) as ports:
            try:
                for place, answer in enumerate(answers):
                    nodes.append(Node(answer, ports.first + place, host))
                return nodes
            except OSError:
                for node in nodes:
                    node.end()
    raise OSError("no free ports")


class Talker:
    """A port of 127.0.0.1 whose every client is sent what it tells, again and again, until it leaves."""

    def __init__(self, part: bytes, pause: float = 0.0) -> None:
        self.part, self.pause = part, pause
        self.server = socket.create_server(("127.0.0.1", 0))
        self.port = self.server.getsockname()[1]
        threading.Thread(target=self.serve, daemon=True).start()

    def serve(self) -> None:
        with contextlib.suppress(OSError):
            while True:
                threading.Thread(target=self.talk, args=(self.server.accept()[0],), daemon=True).start()

    def talk(self, connection: socket.socket) -> None:
        with connection, contextlib.suppress(OSError):
            connection.recv(1 << 12)
            while True:
                connection.sendall(self.part)
                time.sleep(self.pause)

    def end(self) -> None:
        with contextlib.suppress(OSError):
            self.server.shutdown(socket.SHUT_RDWR)
        self.server.close()


def in_a_child(act: Callable[[], object]) -> None:
    """Does this in a process that is forked, and has ended then."""
    child = os.fork()
    if child == 0:
        try:
            act()
        finally:
            os._exit(0)
    os.waitpid(child, 0)


def first(*answers: str | None) -> Callable[[str], str | None]:
    """Gives these answers, one after the other."""
    left = list(answers)
    return lambda _line: left.pop(0)


class Votes:
    """What one node of a ring would answer. Who stands for a term leads in it, where `elects`."""

    def __init__(self, elects: bool = True) -> None:
        self.elects = elects
        self.floor = 0
        self.stood: dict[int, int] = {}
        self.leaders: dict[int, tuple[int, int]] = {}

    def __call__(self, line: str) -> str:
        words = line.split()
        if words[0] == "retire":
            return self.retire(int(words[2]))
        if words[0] in ("stand", "who") and int(words[2]) < self.floor:
            return f"no 23 retired {self.floor}"
        if words[0] == "stand":
            term, bid = int(words[2]), int(words[3])
            if term in self.stood:
                return f"no 3 already {self.stood[term]}"
            self.stood[term] = bid
            if self.elects:
                self.leaders[term] = (1, bid)
            return "stood"
        term = int(words[2]) if words[0] == "who" else max(self.leaders, default=0)
        if term not in self.leaders:
            return "none"
        told = "leader {} {}".format(*self.leaders[term])
        return told if words[0] == "who" else f"term {term} {told}"

    def retire(self, floor: int) -> str:
        if floor <= self.floor:
            return f"no 23 retired {self.floor}"
        if floor > max(self.leaders, default=0):
            return "no 26 undecided"
        self.floor = floor
        return "retired"


class Groups:
    """What one node of a ring would answer, which votes for each group apart, and takes what holders tell."""

    def __init__(self) -> None:
        self.votes: dict[str, Votes] = {}

    def __call__(self, line: str) -> str:
        word, group, *_ = line.split()
        return {"resign": "resigned", "tell": "told"}.get(word) or self.votes.setdefault(group, Votes())(line)


class Waiter(threading.Thread):
    """A thread that waits for a lock, and what ended that where it was asked to end."""

    def __init__(self, lock: Lock, cancel: threading.Event) -> None:
        super().__init__(daemon=True)
        self.lock, self.cancel = lock, cancel
        self.faults: list[type[Exception]] = []
        self.start()

    def run(self) -> None:
        try:
            self.lock.acquire(cancel=self.cancel)
        except (Cancelled, Resigned) as fault:
            self.faults.append(type(fault))
