"""Runs of a ring of which one call is refused, by tests/refuse.c."""
import contextlib
import os
import select
import shutil
import socket
import subprocess
import sys
import time
from collections.abc import Iterator
from typing import IO, NamedTuple

from known import Known, Question, Session
from short import Failed, free_ports

sys.path.append(os.path.join(os.path.dirname(os.path.abspath(__file__)), "..", "tests"))
from refuser import NAMES, NoCompiler, Refusal, Refuser

NODES, CAPACITY, SECONDS = 3, 4_096, 10
# How long a ring that lacks memory is waited for, in seconds: it may wait for good.
SHORT = 0.4
# A ring does not make as many calls each time: so many runs in a row with none refused end a sweep.
SPARED = 3


def refuser_in(folder: str) -> Refuser:
    """What orders the calls of a ring, in a folder. Ends with 2 where nothing here compiles C."""
    try:
        return Refuser(folder)
    except NoCompiler as fault:
        print(fault, file=sys.stderr)
        sys.exit(2)


@contextlib.contextmanager
def serving(ringd: str, folder: str, settings: str, words: list[str], environment: dict[str, str], errors: IO[bytes] | int) -> Iterator[subprocess.Popen]:
    """A ring of three nodes below the folder that serves with these settings, and is killed in the end. Refused where it does not serve."""
    path = os.path.join(folder, "settings")
    with open(path, "w", encoding="ascii") as file:
        file.write(f'nodes = {NODES}\ndir = "{folder}/ring"\n{settings}')
    os.mkdir(os.path.join(folder, "ring"))
    with subprocess.Popen([os.path.abspath(ringd), "--settings", path, "--always", *words], stdin=subprocess.DEVNULL,
                          stdout=subprocess.PIPE, stderr=errors, env=environment) as process:
        try:
            while b"serving" not in (line := process.stdout.readline()):
                if not line:
                    raise Failed("ringd does not serve")
            yield process
        finally:
            process.kill()


class End(NamedTuple):
    """How a ring came to its end: its status, None where it was killed; what it said; how many calls were refused; whether each question
    was answered; whether each Stand was taken, each election came to its end, and the ring ended well; and what was wrong."""
    status: int | None
    said: str
    refused: int
    is_answered: bool
    is_whole: bool
    faults: list[str]


class Ring:
    """A folder with a ring of three nodes, and what it told. `base` is a folder that it begins with, or None."""

    def __init__(self, ringd: str, folder: str, base: str | None) -> None:
        self.ringd, self.folder = ringd, folder
        self.dir = os.path.join(folder, "ring")
        shutil.rmtree(self.dir, ignore_errors=True)
        shutil.copytree(base, self.dir) if base else os.mkdir(self.dir)
        self.known = Known(NODES, True)
        self.patience = float(SECONDS)

    def start(self, environment: dict[str, str], words: list[str]) -> bool:
        """Starts it. Whether it serves."""
        for _ in range(20):
            self.port = free_ports(NODES)
            with open(os.path.join(self.folder, "settings"), "w", encoding="ascii") as file:
                file.write(f'nodes = {NODES}\ndir = "{self.dir}"\nport = {self.port}\ncapacity = {CAPACITY}\n')
            with open(os.path.join(self.folder, "err"), "wb") as err:
                self.process = subprocess.Popen([self.ringd, "--settings", os.path.join(self.folder, "settings"), *words],
                                                stdin=subprocess.DEVNULL, stdout=subprocess.PIPE, stderr=err, env=environment, bufsize=0)
            if self.is_served() or "cannot be used" not in self.said():
                return self.process.poll() is None
        raise SystemExit("no free ports")

    def is_served(self) -> bool:
        text, until = b"", time.monotonic() + SECONDS
        while b"serving\n" not in text:
            ready, _, _ = select.select([self.process.stdout], [], [], max(0.0, until - time.monotonic()))
            part = self.process.stdout.read(256) if ready else b""
            if not part:
                self.ends(until - time.monotonic())
                return False
            text += part
        return True

    def said(self) -> str:
        with open(os.path.join(self.folder, "err"), encoding="utf-8", errors="replace") as file:
            return file.read()

    def ends(self, seconds: float) -> int | None:
        """Its status, once it ended by itself. None where it was killed."""
        try:
            return self.process.wait(max(0.0, seconds))
        except subprocess.TimeoutExpired:
            self.process.kill()
            self.process.wait()
            return None
        finally:
            self.process.stdout.close()

    def play(self, refuser: Refuser, refusal: Refusal, questions: list[tuple[int, Question]]) -> End:
        """A start, these questions, each node by one session, and the end; then a start with nothing refused, which is asked again."""
        if refusal.name == "memory":
            self.patience = SHORT
        is_answered = is_whole = False
        if self.start(refuser.environment(refusal), ["--serve", "1"]):
            try:
                is_whole = self.ask(questions)
                is_answered = True
            except OSError:
                pass
            status = self.ends(SECONDS if is_whole else self.patience)
        else:
            status = self.process.returncode
        refused, said = refuser.refused(), self.said()
        self.known.process_ended()
        self.look()
        return End(status, said, refused, is_answered, is_whole and status == 0, self.known.faults)

    def ask(self, questions: list[tuple[int, Question]]) -> bool:
        """Asks them one after the other. A `who` is asked until it names a leader. Whether all was answered as it should be."""
        sessions = [socket.create_connection(("127.0.0.1", self.port + place), self.patience) for place in range(NODES)]
        try:
            told = [Session() for _ in sessions]
            is_whole = all([self.one(node, sessions[node - 1], told[node - 1], question) for node, question in questions])
            for session in sessions:
                session.sendall(b"bye\n")
            return is_whole
        finally:
            for session in sessions:
                session.close()

    def one(self, node: int, connection: socket.socket, session: Session, question: Question) -> bool:
        until = time.monotonic() + self.patience
        while True:
            before = self.known.sending(node, question, session)
            try:
                answer = exchange(connection, question.line())
            except OSError:
                self.known.no_answer(node, question)
                raise
            if answer.startswith(("no 8 ", "no 9 ")):
                # The Stand may be there or not.
                self.known.no_answer(node, question)
                return False
            self.known.answered(node, question, before, session, answer)
            if question.word != "who" or answer != "none":
                return answer == "stood" or question.word == "who"
            if time.monotonic() > until or "failed" in self.said():
                return False
            time.sleep(0.001)

    def look(self) -> None:
        """Starts it with nothing refused, and asks again what is known."""
        self.patience = float(SECONDS)
        if not self.start(dict(os.environ), ["--always"]):
            self.known.fault(f"a start with nothing refused ends, and says {self.said()!r}")
            return
        try:
            for node in range(1, NODES + 1):
                with socket.create_connection(("127.0.0.1", self.port + node - 1), SECONDS) as connection:
                    session = Session()
                    for question in self.again(node):
                        before = self.known.sending(node, question, session)
                        self.known.answered(node, question, before, session, exchange(connection, question.line()))
        except OSError as error:
            self.known.fault(f"a start with nothing refused does not answer: {error}")
        self.ends(0)

    def again(self, node: int) -> list[Question]:
        """Each Stand of the node that was asked, and each leader."""
        stood = [Question("stand", *key, bid + 1) for (at, key), (bid, _) in self.known.stood.items() if at == node]
        asked = [question for at, question in self.known.open if at == node]
        return stood + asked + [Question("who", *key) for key in self.known.leaders]


def answer(connection: socket.socket) -> str:
    """The next line of the connection."""
    told = b""
    while not told.endswith(b"\n"):
        part = connection.recv(256)
        if not part:
            raise ConnectionError("the session ended")
        told += part
    return told[:-1].decode("ascii", "replace")


def exchange(connection: socket.socket, line: str) -> str:
    """The answer to a line."""
    connection.sendall(line.encode() + b"\n")
    return answer(connection)


# Two elections, in which all nodes name the leader.
ELECTIONS = [(place % NODES + 1, question) for term in (101, 102) for place, question in
             [(term, Question("stand", "abcdefghijklmnop", term, 5)), *((node, Question("who", "abcdefghijklmnop", term)) for node in range(NODES))]]


def filled(ringd: str, folder: str, terms: int) -> str:
    """A folder of a ring that had so many elections, after which the next one makes a checkpoint."""
    ring = Ring(ringd, folder, None)
    if not ring.start(dict(os.environ), ["--serve", "1"]):
        raise SystemExit(f"ringd does not serve: {ring.said()}")
    ring.ask([(node, question) for term in range(1, terms + 1)
              for node, question in [(term % NODES + 1, Question("stand", "abcdefghijklmnop", term, 5)),
                                     *((node, Question("who", "abcdefghijklmnop", term)) for node in range(1, NODES + 1))]])
    ring.ends(SECONDS)
    base = os.path.join(folder, "base")
    shutil.copytree(ring.dir, base)
    return base
