"""What stands in a node's journal, as docs/FORMATS.md has it."""
from typing import Iterator, NamedTuple

# What the journals begin with that were made without areas, and the layouts of areas.
OLD_MARK, LAYOUTS = b"CRJRNL01", (b"\2", b"\3")
# Where area A begins.
AREA_A = 16
# The bytes of an area before its snapshot: gate, layout, epoch, and the snapshot's size.
HEAD = 14
# What an input takes of the capacity beside its record.
FRAME = 7
STAND, TOKEN, ELECTED, ACKED, RETIRE = 1, 2, 3, 4, 5
KINDS = {STAND: "Stand", TOKEN: "Token", ELECTED: "Elected", ACKED: "Acked", RETIRE: "Retire"}


class Input(NamedTuple):
    """A record: a number, and the key, the bid and the node that stands; what its kind does not have is empty."""
    kind: int
    number: int = 0
    group: str = ""
    term: int = 0
    bid: int = 0
    node: int = 0


class Known(NamedTuple):
    """What a snapshot has of a key: the bid that the node stands with, and the leader's bid and node."""
    group: str
    term: int
    stood: int | None
    leader: tuple[int, int] | None


class Snapshot(NamedTuple):
    """Its counts, its keys, and the messages of its window, which have no numbers."""
    inputs: int
    taken: int
    credit: int
    sent: int
    stands: int
    keys: list[Known]
    window: list[Input]


class State(NamedTuple):
    """The area in use: where it begins, its epoch and snapshot, its inputs, its closed gate, and what is taken."""
    start: int
    epoch: int
    snapshot: bytes
    inputs: list[Input]
    gate: int
    taken: int


def areas(capacity: int) -> tuple[int, int]:
    return AREA_A, AREA_A + 1 + HEAD + capacity


def number(data: bytes, at: int, length: int) -> int:
    return int.from_bytes(data[at:at + length], "big")


def epochs(data: bytes) -> dict[int, int]:
    """Those of the areas that count, by where these begin. An open gate of frames alone, of layout 1, is none."""
    return {start: number(data, start + 2, 8) for start in areas(number(data, 10, 4))
            if data[start:start + 1] == b"\1" and data[start + 1:start + 2] in LAYOUTS}


def first_epoch(data: bytes) -> int:
    """That in which a journal is made: one that has no area has 0."""
    return 0 if data[:8] == OLD_MARK else 1


def layout(data: bytes) -> int:
    """That of the area in use, 1 where no area counts."""
    return data[in_use(data) + 1] if epochs(data) else 1


class Reader:
    """Reads bytes from the left, and keeps by their offsets what they belong to: a field of what is read."""

    def __init__(self, data: bytes, at: int = 0) -> None:
        self.data, self.at = data, at
        self.owner, self.fields = "header", dict[int, str]()

    def number(self, length: int, field: str) -> int:
        value = number(self.data, self.at, length)
        self.fields |= dict.fromkeys(range(self.at, self.at + length), f"{self.owner}: {field}")
        self.at += length
        return value

    def name(self) -> str:
        length = self.number(1, "length")
        return self.number(length, "name").to_bytes(length, "big").decode("ascii")

    def key(self) -> tuple[str, int]:
        return self.name(), self.number(4, "term")

    def candidate(self) -> tuple[int, int]:
        return self.number(4, "bid"), self.number(1, "node")

    def record(self) -> Input:
        self.owner = KINDS.get(self.data[self.at], "record")
        kind = self.number(1, "kind")
        counted = 0 if kind in (STAND, RETIRE) else self.number(8, "number")
        if kind == ACKED:
            return Input(kind, counted)
        key = self.key()
        if kind == RETIRE:
            return Input(kind, 0, *key)
        if kind == STAND:
            return Input(kind, 0, *key, self.number(4, "bid"))
        return Input(kind, counted, *key, *self.candidate())

    def known(self) -> Known:
        """A key of a snapshot."""
        self.owner = "key"
        key, flags = self.key(), self.number(1, "flags")
        stood = self.number(4, "own bid") if flags & 1 else None
        return Known(*key, stood, self.candidate() if flags & 2 else None)

    def message(self) -> Input:
        """A message of a window, without its number."""
        self.owner = "message"
        kind = self.number(1, "kind")
        return Input(kind, 0, *self.key(), *self.candidate())

    def snapshot(self) -> Snapshot:
        """One of layout 2, or what one of layout 3 has before its floors."""
        self.owner = "snapshot"
        inputs, taken, credit, sent = (self.number(8, field) for field in ("inputs", "taken", "credit", "sent"))
        stands, count = self.number(2, "stands"), self.number(4, "keys")
        keys = [self.known() for _ in range(count)]
        return Snapshot(inputs, taken, credit, sent, stands, keys, [self.message() for _ in range(sent - credit)])

    def floors(self) -> Iterator[tuple[str, int]]:
        self.owner = "floors"
        count, self.owner = self.number(4, "count"), "floor"
        for _ in range(count):
            yield self.key()

    def header(self) -> None:
        self.owner = "header"
        for length, field in ((8, "mark"), (1, "node"), (1, "ring"), (4, "capacity"), (2, "zeros")):
            self.number(length, field)

    def head(self, start: int, owner: str) -> tuple[int, int, int]:
        """Of the area that begins there: its layout, its epoch, and where its snapshot ends."""
        self.at, self.owner = start, owner
        _, layout, epoch, length = (self.number(*it) for it in ((1, "gate"), (1, "layout"), (8, "epoch"), (4, "length")))
        return layout, epoch, self.at + length

    def frames(self) -> Iterator[list[Input]]:
        """The inputs of each frame that stands here, up to the closed gate, before which it then stands."""
        while self.data[self.at] == 1:
            self.owner = "frame"
            self.number(1, "gate")
            count = self.number(2, "count")
            self.number(4, "length")
            yield [self.record() for _ in range(count)]


def records(data: bytes) -> Iterator[Input]:
    """The inputs of these records."""
    reader = Reader(data)
    while reader.at < len(data):
        yield reader.record()


def keys(snapshot: bytes) -> list[Known]:
    """What a snapshot has of its keys."""
    return Reader(snapshot).snapshot().keys


def floors(snapshot: bytes) -> Iterator[tuple[str, int]]:
    """The groups with a floor, and their floors, of a snapshot of layout 3."""
    reader = Reader(snapshot)
    reader.snapshot()
    return reader.floors()


def in_use(data: bytes) -> int:
    """Where the area begins that is in use."""
    counting = epochs(data)
    return max(counting, key=counting.__getitem__)


def read(data: bytes) -> State:
    """What a journal holds."""
    reader, start = Reader(data), in_use(data)
    _, epoch, reader.at = reader.head(start, "area")
    snapshot, frames = data[start + HEAD:reader.at], list(reader.frames())
    inputs = [taken for frame in frames for taken in frame]
    taken = reader.at - start - HEAD + FRAME * (len(inputs) - len(frames))
    return State(start, epoch, snapshot, inputs, reader.at, taken)


def fields(data: bytes) -> dict[int, str]:
    """What each byte belongs to, by its offset: of the header, of the area in use up to its closed gate, and of the head
    of the other area."""
    reader, start = Reader(data), in_use(data)
    reader.header()
    for other in set(areas(number(data, 10, 4))) - {start}:
        reader.head(other, "other area")
    layout, _, end = reader.head(start, "area")
    reader.snapshot()
    if layout > 2:
        list(reader.floors())
    assert reader.at == end
    list(reader.frames())
    reader.owner = "frame"
    reader.number(1, "closed gate")
    return reader.fields
