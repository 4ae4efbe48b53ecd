"""Who leads, in values."""
from typing import NamedTuple


class Leader(NamedTuple):
    """Who leads: a node, 1 to 16, and its bid, 0 to 999,999,999."""
    node: int
    bid: int


class Led(NamedTuple):
    """A term and its leader."""
    term: int
    leader: Leader


class Election(NamedTuple):
    """A term, its leader, and whether that is who campaigned."""
    term: int
    leader: Leader
    is_mine: bool


class Holder(NamedTuple):
    """Who holds a lock: its term and leader, its process, which nobody knows across hosts, and what it tells of itself."""
    term: int
    leader: Leader
    pid: int | None
    text: str


class Waiter(NamedTuple):
    """Who waits for a lock: its process, and what it tells of itself."""
    pid: int
    text: str
