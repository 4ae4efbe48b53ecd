"""Clients that ask a node until it is killed."""
import random
import socket
import threading

from known import BIDS, GROUPS, Known, Question, Session

# A session has so many lines at most. A node sends again what may be lost where a session ends.
LINES = 300
# At the last free door of its node a session ends behind so many. It is there where the door of the one before is not free yet.
SHORT = 10


class Broken(Exception):
    """The session broke off, or none was to be had."""


class Client:
    """Asks one node, by one session after the other, and holds each answer against what is known. `again` is asked
    first. `patience` is how many seconds an answer is waited for."""

    def __init__(self, known: Known, node: int, port: int, again: list[Question], rng: random.Random,
                 patience: float) -> None:
        self.known, self.node, self.port = known, node, port
        self.again, self.rng, self.patience = again, rng, patience
        self.asked_again = threading.Event()
        # Set before ringd is killed or its disk fails: from then on a session may break off, and a node may fail.
        self.is_killed = False
        self.connection: socket.socket | None = None
        self.session = Session()
        # How many lines are left of the session, and how many were answered.
        self.left = self.answered = 0

    def run(self, is_look: bool) -> None:
        """Asks again, and then, unless it is only a look, new questions until the session breaks off."""
        try:
            for question in self.again:
                self.ask(question)
            self.asked_again.set()
            while not is_look:
                self.ask(self.pick())
        except Broken as broken:
            if not self.is_killed:
                self.known.fault(f"node {self.node}: {broken}")
        finally:
            self.asked_again.set()
            if self.connection is not None:
                self.connection.close()

    def pick(self) -> Question:
        """A new question. Stands are mostly for the term above the greatest one that has a leader, so that nodes stand
        for the same; floors are near that one."""
        group = self.rng.choice(GROUPS)
        term = self.known.greatest.get(group, 0) + 1
        if self.known.retires and self.rng.random() < 0.1:
            return Question("retire", group, max(1, term + self.rng.choice([-9, -4, -3, -2, -1, -1, 0])))
        kind = self.rng.random()
        if kind < 0.45:
            return Question("stand", group, term + self.rng.choice([0, 0, 0, 1, 2]), self.rng.randrange(BIDS))
        some = max(1, term - self.rng.randrange(4))
        if kind < 0.55:
            return Question("stand", group, some, self.rng.randrange(BIDS))
        if kind < 0.8:
            return Question("who", group, some)
        return Question("latest", group)

    def ask(self, question: Question) -> None:
        if self.left == 0:
            self.connect()
        self.left -= 1
        before = self.known.sending(self.node, question, self.session)
        try:
            answer = self.exchange(question.line())
        except OSError as error:
            self.known.no_answer(self.node, question)
            if self.is_killed or self.answered != SHORT:
                raise Broken(f"{question.line()!r} got no answer: {error}") from None
            self.leave()
            self.ask(question)
            return
        self.answered += 1
        self.known.answered(self.node, question, before, self.session, answer)

    def leave(self) -> None:
        """Leaves a session that has ended."""
        self.connection.close()
        self.connection, self.left = None, 0

    def connect(self) -> None:
        """Ends the session, with `bye` or without, and opens another one."""
        try:
            if self.connection is not None:
                if self.rng.random() < 0.5 and self.answered != SHORT and self.exchange("bye") != "bye":
                    raise Broken("'bye' got another answer")
                self.connection.close()
            self.connection = self.open()
            self.connection.setsockopt(socket.IPPROTO_TCP, socket.TCP_NODELAY, 1)
        except OSError as error:
            raise Broken(f"no session: {error}") from None
        self.session = Session()
        self.left, self.answered = self.rng.randint(1, LINES), 0

    def open(self) -> socket.socket:
        """A connection to the node."""
        return socket.create_connection(("127.0.0.1", self.port), self.patience)

    def exchange(self, line: str) -> str:
        """The answer to a line. A part of one is none."""
        self.connection.sendall(line.encode() + b"\n")
        answer = b""
        while not answer.endswith(b"\n"):
            part = self.connection.recv(256)
            if not part:
                raise ConnectionError("the session ended")
            answer += part
        if self.is_killed and answer == b"no 9 failed\n":
            raise ConnectionError("the node failed")
        return answer[:-1].decode("ascii", "replace")


def start(clients: list[Client], is_look: bool) -> list[threading.Thread]:
    """Has them ask, each in a thread."""
    threads = [threading.Thread(target=client.run, args=(is_look,), daemon=True) for client in clients]
    for thread in threads:
        thread.start()
    return threads

