"""A reader of a node's file, as docs/FORMATS.md has it, and of what its inputs come to, as docs/PROTOCOL.md has it."""
import re
from typing import NamedTuple

MARK, OLD_MARK, NAME = b"CRJRNL02", b"CRJRNL01", re.compile(rb"[a-z][a-z0-9-]*")
HEAD, LEAST, GREATEST, BID = 16, 4_096, 1_048_576, 999_999_999
STANDS, INPUTS, EPOCHS, COUNT, FULLEST = 1_024, 2**56, 2**40, 64, 2**21 + 2**12


class Refused(Exception):
    """The text of a refusal."""


class Short(Exception):
    """The bytes are no record, or no snapshot."""


class Message(NamedTuple):
    is_token: bool
    key: tuple[bytes, int]
    candidate: tuple[int, int]


class Input(NamedTuple):
    """A Stand with a key and a bid, a Take with a number and a message, an Acked with a number, or a Retire with a group and a floor."""
    kind: str
    number: int = 0
    key: tuple[bytes, int] | None = None
    message: Message | None = None
    length: int = 0


class Bytes:
    """Bytes that are read from the left."""

    def __init__(self, text: bytes) -> None:
        self.text, self.at = text, 0

    def number(self, size: int, low: int = 0, high: int = 2**64) -> int:
        value = int.from_bytes(self.bytes(size), "big")
        if not low <= value <= high:
            raise Short
        return value

    def bytes(self, size: int) -> bytes:
        if self.at + size > len(self.text):
            raise Short
        self.at += size
        return self.text[self.at - size:self.at]

    def key(self) -> tuple[bytes, int]:
        name = self.bytes(self.number(1, 1, 16))
        if not NAME.fullmatch(name):
            raise Short
        return name, self.number(4, 1, BID)

    def record(self, kinds: int) -> Input:
        begin, kind = self.at, self.number(1, 1, kinds)
        if kind in (1, 5):
            key = self.key()
            number = self.number(4, 0, BID) if kind == 1 else 0
            return Input("stand" if kind == 1 else "retire", number, key, None, self.at - begin)
        number = self.number(8)
        if kind == 4:
            return Input("acked", number, None, None, self.at - begin)
        message = Message(kind == 2, self.key(), (self.number(4, 0, BID), self.number(1, 1, 16)))
        return Input("take", number, None, message, self.at - begin)


class State:
    """What a node's inputs come to."""

    def __init__(self, me: int, nodes: int, capacity: int, layout: int, snapshot: bytes) -> None:
        self.me, self.nodes, self.capacity, self.used = me, nodes, capacity, len(snapshot)
        text = Bytes(snapshot if layout > 1 else bytes(38))
        self.inputs, self.taken, self.credit, self.sent = (text.number(8) for _ in range(4))
        self.stands, count = text.number(2), text.number(4)
        self.stood: dict[tuple[bytes, int], int] = {}
        self.leaders: dict[tuple[bytes, int], tuple[int, int]] = {}
        keys = [self.read_key(text) for _ in range(min(count, len(snapshot)))]
        self.touched = set(keys)
        is_sound = (self.credit <= self.sent <= self.inputs <= INPUTS and self.taken + self.stands <= self.inputs
                    and self.stands == len(self.stood) and len(keys) == count and all(a < b for a, b in zip(keys, keys[1:])))
        if not is_sound:
            raise Short
        # The messages from number `credit` on.
        self.window = [Message(text.number(1, 2, 3) == 2, text.key(), (text.number(4, 0, BID), text.number(1, 1, nodes)))
                       for _ in range(min(self.sent - self.credit, len(snapshot)))]
        # What its file has of both links: those that it sent from then on and took behind it, by their numbers.
        self.was_sent = dict(enumerate(self.window, self.credit))
        self.was_taken: dict[int, Message] = {}
        count = text.number(4) if layout > 2 else 0
        floors = [text.key() for _ in range(min(count, len(snapshot)))]
        self.floors = dict(floors)
        is_sound = len(floors) == count and all(a < b for (a, _), (b, _) in zip(floors, floors[1:]))
        if text.at != len(text.text) or len(self.window) != self.sent - self.credit or not is_sound or any(map(self.is_retired, keys)):
            raise Short

    def read_key(self, text: Bytes) -> tuple[bytes, int]:
        key, flags = text.key(), text.number(1, 0, 3)
        if flags & 1:
            self.stood[key] = text.number(4, 0, BID)
        if flags & 2:
            self.leaders[key] = text.number(4, 0, BID), text.number(1, 1, self.nodes)
        return key

    def latest(self, group: bytes) -> int:
        """The greatest term of the group that has a leader."""
        return max((term for name, term in self.leaders if name == group), default=0)

    def is_retired(self, key: tuple[bytes, int]) -> bool:
        """Whether its term is below its group's floor."""
        return key[1] < self.floors.get(key[0], 0)

    def is_lawful(self, asked: Input) -> bool:
        """Whether the inputs before it allow it."""
        if asked.kind == "stand":
            is_new = asked.key not in self.touched and not self.is_retired(asked.key)
            is_right = is_new and self.latest(asked.key[0]) <= asked.key[1] and self.stands < STANDS
        elif asked.kind == "retire":
            is_right = self.floors.get(asked.key[0], 0) < asked.key[1] <= self.latest(asked.key[0])
        elif asked.kind == "take":
            is_right = asked.message.candidate[1] <= self.nodes and asked.number == self.taken
        else:
            is_right = self.credit < asked.number <= self.sent
        return is_right and self.inputs < INPUTS and self.used + asked.length + 7 <= self.capacity

    def accept(self, asked: Input) -> None:
        self.inputs += 1
        self.used += asked.length + 7
        if asked.kind == "stand":
            self.stands += 1
            self.touched.add(asked.key)
            self.stood[asked.key] = asked.number
            self.send(Message(True, asked.key, (asked.number, self.me)))
        elif asked.kind == "retire":
            self.retire(*asked.key)
        elif asked.kind == "acked":
            del self.window[:asked.number - self.credit]
            self.credit = asked.number
        else:
            self.take(asked.message)

    def retire(self, group: bytes, floor: int) -> None:
        self.floors[group] = floor
        for key in [key for key in self.touched if self.is_retired(key)]:
            self.touched.remove(key)
            self.leaders.pop(key, None)
            self.stands -= self.stood.pop(key, None) is not None

    def take(self, message: Message) -> None:
        self.was_taken[self.taken] = message
        self.taken += 1
        is_token, key, candidate = message
        if self.is_retired(key):
            return
        own = (self.stood[key], self.me) if key in self.stood else None
        self.touched.add(key)
        is_own = candidate[1] == self.me
        if is_token and not is_own:
            if own is None or own < candidate:
                self.send(message)
        elif key not in self.leaders and (candidate == own if is_token else not is_own):
            self.leaders[key] = candidate
            self.send(Message(False, key, candidate))

    def send(self, message: Message) -> None:
        self.was_sent[self.sent] = message
        self.sent += 1
        self.window.append(message)


def read(image: bytes, me: int, nodes: int) -> tuple[State, int]:
    """The state that the file of this node of a ring of so many stands for, and its epoch. `Refused` where it does not open."""
    if len(image) > FULLEST:
        raise Refused("device 1")
    if len(image) <= HEAD or image[:8] not in (MARK, OLD_MARK):
        raise Refused("unformatted")
    if (image[8], image[9]) != (me, nodes):
        raise Refused("wrongnode")
    capacity = int.from_bytes(image[10:14], "big")
    if not LEAST <= capacity <= GREATEST:
        raise Refused("damaged 10")
    if image[14:16] != b"\0\0":
        raise Refused("damaged 14")
    epochs = {start: int.from_bytes(image[start + 2:start + 10].ljust(8, b"\0"), "big") for start in (HEAD, 31 + capacity)
              if image[start:start + 2] in (b"\1\2", b"\1\3")}
    is_plain = not epochs and image[:8] == OLD_MARK
    if is_plain:
        epochs = {HEAD: 0}
    elif not epochs or len(epochs) == 2 and len(set(epochs.values())) == 1:
        raise Refused("damaged 16")
    start = max(epochs, key=epochs.get)
    size = int.from_bytes(image[start + 10:start + 14].ljust(4, b"\0"), "big")
    try:
        if epochs[start] >= EPOCHS or not is_plain and len(image) < start + 14 + size:
            raise Short
        layout, snapshot = (1, b"") if is_plain else (image[start + 1], image[start + 14:start + 14 + size])
        state = State(me, nodes, capacity, layout, snapshot)
    except Short:
        raise Refused(f"damaged {start}") from None
    inputs, gate = frames(image, start if is_plain else start + 14 + size, 5 if layout > 2 else 4)
    if gate > start + 14 + capacity:
        raise Refused(f"damaged {start}")
    for place, asked in enumerate(inputs):
        if not state.is_lawful(asked):
            raise Refused(f"unlawful {place}")
        state.accept(asked)
    return state, epochs[start]


def frames(image: bytes, gate: int, kinds: int) -> tuple[list[Input], int]:
    """The inputs of the frames from this gate on, of so many kinds, and the closed gate."""
    inputs: list[Input] = []
    while gate < len(image) and image[gate] == 1:
        text = Bytes(image[gate + 1:])
        try:
            count, length = text.number(2, 1, COUNT), text.number(4)
            records = Bytes(text.bytes(length))
            inputs += [records.record(kinds) for _ in range(count)]
            if records.at != length:
                raise Short
        except Short:
            raise Refused(f"damaged {gate}") from None
        gate += 7 + length
    if gate >= len(image):
        raise Refused(f"damaged {gate}")
    return inputs, gate
