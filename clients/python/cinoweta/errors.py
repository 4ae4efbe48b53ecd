"""What may go wrong. docs/SESSIONS.md says what each refusal means, and what to do."""
import re
from collections.abc import Iterable
from typing import TYPE_CHECKING

if TYPE_CHECKING:
    from .kinds import Holder


class CinowetaError(Exception):
    """What this package raises for its users."""


class NoAnswer(CinowetaError):
    """No node answered in time. Whether a Stand that was asked for was accepted is not known."""


class NoLeader(CinowetaError):
    """No leader came to be known in the terms that were waited for: a node of the ring failed, or is full. To stand
    again and again uses the Stands of the nodes up, and helps nothing. `faults` are the nodes that are not well, as
    `node 3 full`, where the ring's status port is known and tells."""

    def __init__(self, text: str, faults: Iterable[str] = ()) -> None:
        super().__init__(text)
        self.faults = [*faults]


class LockTaken(CinowetaError):
    """Another process held the lock for as long as was waited: the `holder`, with what it tells of itself."""

    def __init__(self, text: str, holder: "Holder | None" = None) -> None:
        super().__init__(text)
        self.holder = holder


class Resigned(CinowetaError):
    """The lock was resigned by another thread, or another task, while this one waited for it."""


class Cancelled(CinowetaError):
    """A wait was ended by its `cancel`."""


class NoTerm(CinowetaError):
    """The group has no further term: it goes on by another name."""


class NotListed(CinowetaError):
    """Who waits for the lock can't be listed: it is held across hosts, or on another one than this."""


class NotHeld(CinowetaError):
    """A process that was forked holds no lock of its parent, and has no term."""


class WrongRing(CinowetaError):
    """The ports are not those of a ring, from its node 1 on; the host is none, or for a lock another one."""


class Refused(CinowetaError):
    """A node refused: its number, 1 to 28, and its text, as 5 and `stale 9`. Each cause is a class of its own. What to do
    may stand behind that in words."""

    def __init__(self, number: int, text: str, words: str = "") -> None:
        super().__init__(f"no {number} {text}{words and ': '}{words}")
        self.number = number
        self.text = text


class BadName(Refused):
    """1: the group is no name."""


class BadNumber(Refused):
    """2: a term or a bid is none."""


class AlreadyStands(Refused):
    """3: the node stands for the group and term already."""


class Late(Refused):
    """4: somebody else stands for the term, and the node passed that on."""


class Stale(Refused):
    """5: a greater term of the group has a leader."""


class LimitReached(Refused):
    """6: the node stood as often as it may."""


class Full(Refused):
    """7: the node has no room, so that its ring elects no more."""


class OutOfMemory(Refused):
    """8: the node found no memory."""


class NodeFailed(Refused):
    """9: the node's device failed, so that its ring elects nobody until it is started again."""


class DeviceFailed(Refused):
    """15: the device failed while the Stand was made durable, which it may be or not."""


class Retired(Refused):
    """23: the term is below the `floor` of its group at this node, or the floor that was asked for is not above it."""

    @property
    def floor(self) -> int:
        """The term below which the node gave up the group's terms; 0 where its text tells none."""
        words = re.fullmatch(r"retired (\d{1,10})", self.text, re.ASCII)
        return int(words[1]) if words else 0


class BadLine(Refused):
    """25: the line is none."""


class Undecided(Refused):
    """26: the floor is above the latest term of the group that has a leader, as far as the node knows."""


class TooFar(Refused):
    """28: the term is further above the latest one that the node knows than it takes, by `ringd --leap`. `most` is the
    greatest term that it takes. Nobody stands on from there: the term came from a mistake."""

    @property
    def most(self) -> int:
        """The greatest term that the node takes; 0 where its text tells none."""
        words = re.fullmatch(r"far (\d{1,10})", self.text, re.ASCII)
        return int(words[1]) if words else 0


# Where the node's device failed. A Stand that was on its way then may be accepted all the same.
FAILED = (NodeFailed, DeviceFailed)
# What time or an operator mends, as by a start. It is no fault of the question.
PASSING = (NoAnswer, NoLeader, LimitReached, Full, OutOfMemory, NodeFailed, DeviceFailed)

KINDS: dict[int, type[Refused]] = {
    1: BadName, 2: BadNumber, 3: AlreadyStands, 4: Late, 5: Stale, 6: LimitReached, 7: Full, 8: OutOfMemory,
    9: NodeFailed, 15: DeviceFailed, 23: Retired, 25: BadLine, 26: Undecided, 28: TooFar,
}


def refusal(answer: str) -> Refused | None:
    """The refusal that an answer is, as `no 5 stale 9`; None where it is none."""
    words = answer.split(" ", 2)
    if len(words) < 3 or words[0] != "no" or not words[1].isdecimal():
        return None
    number = int(words[1])
    return KINDS.get(number, Refused)(number, words[2])
