"""A node of a ring as docs/PROTOCOL.md has it, as far as a picture needs it: no capacity, no limit of Stands."""
import bisect
from typing import NamedTuple


class Key(NamedTuple):
    group: str
    term: int


class Candidate(NamedTuple):
    bid: int
    node: int


class Message(NamedTuple):
    """`Token` or `Elected`."""
    word: str
    key: Key
    candidate: Candidate

    def __str__(self) -> str:
        return f"{self.word} ({self.candidate.bid}, {self.candidate.node})"


class Stand(NamedTuple):
    key: Key
    bid: int


class Take(NamedTuple):
    number: int
    message: Message


class Acked(NamedTuple):
    number: int


class Retire(NamedTuple):
    group: str
    floor: int


Input = Stand | Take | Acked | Retire
REPLIES = {Stand: "stood", Take: "taken", Acked: "acked", Retire: "retired"}


class Node:
    """Its inputs, of which the first ones are durable, and what they amount to. A checkpoint stands for so many first
    inputs, and at its last opening one stood for so many, which it has no more: where a stop left it open which of two
    checkpoints that is, the counts that it may be."""

    def __init__(self, me: int) -> None:
        self.me = me
        self.inputs: list[Input] = []
        self.durable = 0
        self.summarised = self.dropped = {0}
        self.forget()

    def forget(self) -> None:
        # By group: the term below which its terms are retired. Of their keys the node has nothing.
        self.floors: dict[str, int] = {}
        self.stood: dict[Key, int] = {}
        self.touched: set[Key] = set()
        self.leaders: dict[Key, Candidate] = {}
        # Each message that was sent, and how many inputs there were then.
        self.sent: list[tuple[Message, int]] = []
        self.taken = self.credit = 0

    def restart(self, held: int, summarised: set[int]) -> None:
        """It is opened with its first inputs, all of them durable, of which so many are summarised."""
        self.summarised = self.dropped = summarised
        kept, self.inputs = self.inputs[:held], []
        self.forget()
        for each in kept:
            self.accept(each)
        self.durable = held

    def latest(self, group: str) -> Key | None:
        """The key of the group's greatest term that has a leader."""
        return max((key for key in self.leaders if key.group == group), default=None)

    def retired(self, key: Key) -> str | None:
        """Why nobody stands or leads for the key, where its term is below its group's floor."""
        floor = self.floors.get(key.group, 0)
        return f"no 23 retired {floor}" if key.term < floor else None

    def released(self) -> int:
        """How many of the messages sent rest on durable inputs."""
        return bisect.bisect_right(self.sent, self.durable, key=lambda each: each[1])

    def durably_taken(self) -> int:
        return sum(isinstance(each, Take) for each in self.inputs[:self.durable])

    def refusal(self, asked: Input) -> str | None:
        """Why the input is not admitted, but for want of room."""
        if isinstance(asked, Retire):
            return self.objection(asked)
        if isinstance(asked, Stand):
            if (retired := self.retired(asked.key)) is not None:
                return retired
            if asked.key in self.stood:
                return f"no 3 already {self.stood[asked.key]}"
            if asked.key in self.touched:
                return "no 4 late"
            latest = self.latest(asked.key.group)
            return f"no 5 stale {latest.term}" if latest is not None and latest.term > asked.key.term else None
        if isinstance(asked, Take):
            if asked.number == self.taken:
                return None
            return f"no 13 {'old' if asked.number < self.taken else 'gap'} {self.taken}"
        return f"no 13 old {self.credit}" if asked.number <= self.credit else None

    def objection(self, asked: Retire) -> str | None:
        """Why a floor is none, but for want of room."""
        floor, latest = self.floors.get(asked.group, 0), self.latest(asked.group)
        if asked.floor <= floor:
            return f"no 23 retired {floor}"
        return "no 26 undecided" if latest is None or latest.term < asked.floor else None

    def accept(self, asked: Input) -> str:
        """Takes the input, and tells what came of it."""
        self.inputs.append(asked)
        if isinstance(asked, Acked):
            self.credit = asked.number
            return "acked"
        if isinstance(asked, Stand):
            self.touched.add(asked.key)
            self.stood[asked.key] = asked.bid
            self.send(Message("Token", asked.key, Candidate(asked.bid, self.me)))
            return "stood"
        if isinstance(asked, Retire):
            self.retire(asked)
            return "retired"
        self.taken += 1
        if self.retired(asked.message.key) is not None:
            return "retired"
        self.touched.add(asked.message.key)
        return self.hear(asked.message)

    def retire(self, asked: Retire) -> None:
        self.floors[asked.group] = asked.floor
        self.touched = {key for key in self.touched if self.retired(key) is None}
        for known in (self.stood, self.leaders):
            for key in known.keys() - self.touched:
                del known[key]

    def hear(self, message: Message) -> str:
        """What a message does, as the table of docs/PROTOCOL.md says."""
        word, key, candidate = message
        own = Candidate(self.stood[key], self.me) if key in self.stood else None
        if word == "Token" and candidate.node != self.me:
            if own is not None and own > candidate:
                return "dropped"
            self.send(message)
            return "passed on"
        is_shown = candidate == own if word == "Token" else candidate.node != self.me
        if not is_shown or key in self.leaders:
            return "stops"
        self.leaders[key] = candidate
        self.send(Message("Elected", key, candidate))
        return "leads" if candidate == own else "known, passed on"

    def send(self, message: Message) -> None:
        self.sent.append((message, len(self.inputs)))
