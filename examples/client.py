#!/usr/bin/env python3
"""A client of one node of a ring.

client.py PORT stand GROUP TERM BID | who GROUP TERM | latest GROUP

asks the node at 127.0.0.1:PORT and prints its answer: `stood`, `leader I B`, `term T leader I B` or `none`. Status 0;
1 where the node refuses, whose refusal is printed; 2 for other arguments; 3 where no answer came.

A program that wants to lead calls `Client.campaign`, and sends its term with each write.
"""
import secrets
import socket
import sys
import time
from typing import NamedTuple

# A node takes so many Stands. No more that got no answer need be known.
STANDS = 1_024
# No answer of a node is as long, in bytes.
LONGEST = 256
# A leader is asked for at first so many seconds apart, then twice as many each time up to the second number.
PAUSE, LONGEST_PAUSE = 0.02, 1.0


class Leader(NamedTuple):
    """Who leads: a node, 1 to 16, and its bid, 0 to 999,999,999."""
    node: int
    bid: int


class Election(NamedTuple):
    """A term, who leads in it, and whether that is the process that campaigned."""
    term: int
    leader: Leader
    is_mine: bool


class Refused(Exception):
    """A refusal of the node: its number, 1 to 28, and its text, as 5 and `stale 9`. docs/SESSIONS.md says what each
    one means, and what to do."""

    def __init__(self, number: int, text: str) -> None:
        super().__init__(f"no {number} {text}")
        self.number = number
        self.text = text


class NoAnswer(Exception):
    """None of the tries was answered. Whether a Stand was accepted is not known."""


class NoLeader(Exception):
    """No leader came to be known in any of the terms that were waited for: a node of the ring is down, or full. To
    stand again and again uses the node's Stands up, and helps nothing."""


class Client:
    """Asks one node, over a session that is opened where there is none. A question whose session breaks off is asked
    again over a new one, `tries` times in all, `pause` seconds apart; `seconds` is how long an answer is waited for.
    `node` is the number of the node at this port, which `campaign` needs."""

    def __init__(self, port: int, node: int = 0, tries: int = 10, pause: float = 0.3, seconds: float = 5.0) -> None:
        self.port, self.node, self.tries, self.pause, self.seconds = port, node, tries, pause, seconds
        self.connection: socket.socket | None = None
        # The lines of Stands that were sent and got no answer, so that they may have been accepted.
        self.unanswered: set[str] = set()

    def stand(self, group: str, term: int, bid: int) -> None:
        """The node stands for the group and term with this bid, for who asked. Else `Refused`. `no 3 already` with the
        same bid is one of another process, which would lead too, unless this client asked before without an answer."""
        line = f"stand {group} {term} {bid}"
        try:
            self.ask(line)
        except Refused as refusal:
            if refusal.text != f"already {bid}" or line not in self.unanswered:
                raise

    def who(self, group: str, term: int) -> Leader | None:
        """Who leads for the group and term, as far as the node knows."""
        words = self.ask(f"who {group} {term}").split()
        return Leader(int(words[1]), int(words[2])) if words[0] == "leader" else None

    def latest(self, group: str) -> tuple[int, Leader] | None:
        """The greatest term of the group that has a leader, as far as the node knows, and that leader."""
        words = self.ask(f"latest {group}").split()
        return (int(words[1]), Leader(int(words[3]), int(words[4]))) if words[0] == "term" else None

    def campaign(self, group: str, gone: int = 0, rank: int = 0, terms: int = 3, seconds: float = 5.0) -> Election:
        """The leader of the first term above `gone` that comes to have one, for which this process stands where it may.
        `gone` is the term of the leader that the caller takes for gone; a later leader is never put aside. The bid is
        of this call alone, and its upper digits are `rank`, 0 to 999. It stands for so many `terms` at most, and waits
        so many `seconds` in each: then `NoLeader`. `Refused` at once where the node takes no Stand any more."""
        if not 1 <= self.node <= 16 or not 0 <= rank <= 999:
            raise ValueError("campaign needs the client's node, 1 to 16, and a rank of 0 to 999")
        mine = Leader(self.node, rank * 1_000_000 + secrets.randbelow(1_000_000))
        stood: set[int] = set()
        try:
            known = self.above(group, gone)
            for term in range(gone + 1, gone + 1 + terms):
                if known is None:
                    if self.is_taken(group, term, mine.bid):
                        stood.add(term)
                    known = self.wait(group, gone, seconds)
            if known is None:
                raise NoLeader(f"{group}: no leader in {terms} terms above {gone}")
            term, leader = known
            return Election(term, leader, term in stood and leader == mine)
        finally:
            # A session holds one of the node's doors.
            self.close()

    def is_taken(self, group: str, term: int, bid: int) -> bool:
        """Whether the node stands for who asked. Not where somebody else stands there (3), or stood elsewhere before
        (4), or a greater term has a leader (5, and 23 where the node retired this one): one comes to be known then.
        `Refused` for every other cause."""
        try:
            self.stand(group, term, bid)
            return True
        except Refused as refusal:
            if refusal.number not in (3, 4, 5, 23):
                raise
            return False

    def wait(self, group: str, gone: int, seconds: float) -> tuple[int, Leader] | None:
        """The latest leader once its term is above this one, or None after so many seconds."""
        until, pause = time.monotonic() + seconds, PAUSE
        while (known := self.above(group, gone)) is None and time.monotonic() < until:
            time.sleep(pause)
            pause = min(2 * pause, LONGEST_PAUSE)
        return known

    def above(self, group: str, gone: int) -> tuple[int, Leader] | None:
        """The latest leader, where its term is above this one."""
        known = self.latest(group)
        return known if known is not None and known[0] > gone else None

    def ask(self, line: str) -> str:
        """The answer to a line. `Refused` where it is a refusal, `NoAnswer` where none came."""
        if "\n" in line or line == "bye":
            raise ValueError("a question is one line, and no `bye`")
        for attempt in range(self.tries):
            if attempt > 0:
                time.sleep(self.pause)
            try:
                answer = self.ask_once(line)
            except OSError:
                continue
            if answer.startswith("no "):
                _, number, text = answer.split(" ", 2)
                raise Refused(int(number), text)
            return answer
        raise NoAnswer(f"127.0.0.1:{self.port} did not answer: {line}")

    def ask_once(self, line: str) -> str:
        """The answer over the session that is open, or over a new one. `OSError` where it broke off."""
        if self.connection is None:
            self.connection = socket.create_connection(("127.0.0.1", self.port), self.seconds)
        try:
            self.connection.sendall(line.encode() + b"\n")
            answer = b""
            while not answer.endswith(b"\n"):
                part = self.connection.recv(LONGEST)
                if not part or len(answer) > LONGEST:
                    raise ConnectionError("the session broke off")
                answer += part
        except BaseException:
            # A late answer would be read as that of the next line.
            self.close()
            if line.startswith("stand ") and len(self.unanswered) < STANDS:
                self.unanswered.add(line)
            raise
        return answer.decode("ascii", "replace").rstrip("\n")

    def close(self) -> None:
        """Ends the session."""
        if self.connection is not None:
            self.connection.close()
            self.connection = None


def main(words: list[str]) -> int:
    """Asks what the words say, and prints the answer. The status is told at the head of the file."""
    counts = {"stand": 5, "who": 4, "latest": 3}
    numbers = words[:1] + words[3:]
    if len(words) < 2 or len(words) != counts.get(words[1], 0) or not all(word.isdigit() for word in numbers):
        print("usage: examples/" + __doc__.split("\n\n")[1], file=sys.stderr)
        return 2
    client = Client(int(words[0]))
    try:
        if words[1] == "stand":
            client.stand(words[2], int(words[3]), int(words[4]))
            print("stood")
        else:
            print(client.ask(" ".join(words[1:])))
    except Refused as refusal:
        print(refusal)
        return 1
    except NoAnswer as fault:
        print(f"client.py: {fault}", file=sys.stderr)
        return 3
    finally:
        client.close()
    return 0


if __name__ == "__main__":
    sys.exit(main(sys.argv[1:]))
