"""A holder of a lock that clients of other hosts see: while it is there, a session of its process is open with the node where
it leads, of which `ringd --status` tells as `present`."""
import os
import secrets
import threading
import time
from collections.abc import Callable
from typing import TYPE_CHECKING

from . import forks
from .beacon import RANK, SPREAD, require_rank, require_text
from .errors import CinowetaError, NoAnswer, WrongRing
from .host import address
from .keeper import CONNECTS, KEEPERS, SECONDS, Stand
from .kinds import Holder
from .link import SLICE
from .status import Sight

if TYPE_CHECKING:
    from .asking import Asking
    from .kinds import Led

# Who is not present for so long is gone, in seconds: a session that broke off is opened anew before, also behind a start
# of ringd. So often is looked meanwhile.
ABSENT, LOOKS = 2.0, 0.1
# The bid of who is seen across hosts is rank * RANK + SPREAD + step * STEP + a random number below STEP: at a port below
# 1,024, where no beacon listens. The step is the place of the least of these that is no less than the seconds after which
# it gives up; 0 for never.
STEP, GIVES_UP = 97_500, (0, 1, 2, 3, 5, 8, 10, 15, 20, 30, 45, 60, 90, 120, 300, 600)
# What is told of a leader where none is known.
NOBODY = Sight(0, 0, 0, False, False, "")
# Who resigns waits so long for the node to say so, in seconds.
RESIGNS = 0.5
# The bid of who comes next where nobody knows who that is.
WHOEVER = -1


class Presence:
    """Has one lock be present from `show` until `close`, in the session that this process has with the node where it leads."""

    def __init__(self, ring: "Asking", group: str, rank: int, text: str = "", give_up: float | None = None) -> None:
        require_rank(rank)
        require_text(text)
        self.ring, self.group, self.text = ring, group, text
        self.bid = rank * RANK + SPREAD + step_of(give_up) * STEP + secrets.randbelow(STEP)
        self.stand: Stand | None = None
        self.over, self.process = threading.Event(), os.getpid()
        forks.register(self)

    def show(self, term: int, node: int, check: Callable[[], None]) -> None:
        """Shows that it is there, where it leads. `NoAnswer` where the node does not answer, `Refused` where it does not
        stand any more; `check` ends the wait where it raises."""
        host, port = self.ring.host, self.ring.first + node - 1
        self.stand = stand = Stand(self.group, term, self.bid, self.text)
        until = time.monotonic() + min(CONNECTS, self.ring.timeout) + SECONDS
        KEEPERS.add(stand, (host, port))
        try:
            while not stand.answered.wait(SLICE):
                check()
                if time.monotonic() > until:
                    raise NoAnswer(f"{address(host, port)}: timed out")
            # It may have been closed before it was added.
            check()
            if stand.fault is not None:
                raise stand.fault
        except BaseException:
            KEEPERS.remove(stand)
            raise

    def close(self) -> int:
        """Ends it, which others see as soon as they look. Who comes next is nobody that is known here."""
        self.over.set()
        if self.stand is not None:
            KEEPERS.remove(self.stand)
        return WHOEVER

    def await_end(self) -> None:
        """Waits a moment until others may see it."""
        if self.stand is not None:
            self.stand.ended.wait(RESIGNS)

    def forget(self) -> None:
        """In a process that was forked it is that of the parent."""
        self.over, self.stand = threading.Event(), None
        self.over.set()


def step_of(give_up: float | None) -> int:
    """The place of the least number of GIVES_UP that is no less."""
    if give_up is None:
        return 0
    if give_up > GIVES_UP[-1]:
        raise ValueError(f"across hosts who is cut off gives up after {GIVES_UP[-1]} seconds at most")
    return next(step for step, seconds in enumerate(GIVES_UP) if seconds >= give_up)


def gives_up_after(bid: int) -> int:
    """After how many seconds who stood with this bid gives up where no node answers; 0 for never."""
    step = (bid % RANK - SPREAD) // STEP
    return GIVES_UP[step] if is_across(bid) else 0


def is_nobody(bid: int) -> bool:
    """Whether nobody is seen who stood with this bid, as where an operator did."""
    return bid % RANK < SPREAD


def is_across(bid: int) -> bool:
    """Whether who stood with this bid is seen across hosts."""
    return 0 <= bid % RANK - SPREAD < STEP * len(GIVES_UP)


async def is_there(ring: "Asking", group: str, known: "Led", seconds: float) -> bool:
    """Whether who leads so is present within so many seconds of the first answer, and as many more as it takes to give up;
    who resigned is not. The first answer may come late, as behind a start. `NoAnswer` where the status port does not
    answer, `WrongRing` where it does not come to know this leader."""
    until: float | None = None
    while True:
        seen = await ring.present(group, known.leader.node) or NOBODY
        is_known = seen[:3] == (known.term, *known.leader)
        if seen.term > known.term or is_known and (seen.is_present or seen.is_resigned):
            return is_known and seen.is_present
        if until is None:
            until = time.monotonic() + seconds + gives_up_after(known.leader.bid)
        left = until - time.monotonic()
        if left <= 0 and not is_known:
            where = f"{ring.host}:{ring.status}"
            raise WrongRing(f"{where} tells of another leader of {group} in term {known.term}, or none: is it this ring's?")
        if left <= 0:
            return False
        await ring.sleep(min(LOOKS, left))


async def holder_of(ring: "Asking", group: str, known: "Led") -> Holder | None:
    """Who leads so, with what it tells, as far as the status port tells."""
    try:
        seen = await ring.present(group, known.leader.node) or NOBODY
    except CinowetaError:
        return None
    return Holder(known.term, known.leader, None, seen.text) if seen[:3] == (known.term, *known.leader) else None
