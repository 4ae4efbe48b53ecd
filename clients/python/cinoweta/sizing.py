"""What a ring needs for its groups, by the rule of docs/OPERATING.md, which bench/sizing.py measures."""
from typing import NamedTuple

from .asking import STANDS
from .election import KEEP

# Those that are told, in bytes, the last one of which is the greatest that there is.
CAPACITIES = [65_536 << shift for shift in range(5)]
# What a term takes of a snapshot beside the name of its group, in bytes.
TERM = 11


class Size(NamedTuple):
    """The capacity of each node, how many terms who leads keeps, and what a node comes to then: the bytes of its snapshot,
    and its Stands."""
    capacity: int
    keep: int
    snapshot: int
    stands: int


def size(groups: int, elections: int, name: int = 8, nodes: int = 3) -> Size | None:
    """The least ring for so many groups, with names of so many bytes, and so many elections a minute in all of them
    together, the terms of which are kept, KEEP at least. None where no capacity is enough, or a node has too few Stands."""
    if groups < 1 or elections < 0 or not 1 <= name <= 16 or not 2 <= nodes <= 16:
        raise ValueError("a ring has 1 group or more, with names of 1 to 16 bytes, 0 elections or more, and 2 to 16 nodes")
    keep = max(KEEP, up(elections, groups))
    snapshot, stands = groups * (keep + 4) * (TERM + name), groups * up(keep + 2, nodes)
    enough = [capacity for capacity in CAPACITIES if 4 * snapshot <= capacity and stands <= STANDS]
    return Size(enough[0], keep, snapshot, stands) if enough else None


def up(whole: int, parts: int) -> int:
    """A part of it, rounded up."""
    return -(-whole // parts)
