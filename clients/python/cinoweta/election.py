"""Who leads, and how to come to lead."""
import contextlib
import logging
import os
import secrets
import time
from collections.abc import AsyncIterator

from .asking import Asking
from .errors import (FAILED, PASSING, AlreadyStands, CinowetaError, Full, Late, LimitReached, NoAnswer, NoLeader, NoTerm,
                     OutOfMemory, Refused, Retired, Stale, TooFar, WrongRing)
from .kinds import Election, Leader, Led
from .pause import Pause

# So many terms below its own who leads keeps by default, and so long it waits for a node that is to retire the others,
# in seconds.
KEEP, SECONDS = 2, 1.0
# The greatest term.
LAST = 999_999_999
# So long the status port waits for a leader at once, in seconds.
WAIT = 30
LOG = logging.getLogger("cinoweta")


def require_keep(keep: int) -> int:
    if keep < 0:
        raise ValueError("who leads keeps 0 terms or more")
    return keep


def random_bid(rank: int) -> int:
    """A bid that no other campaign has, with the rank in its upper digits."""
    if not 0 <= rank <= 999:
        raise ValueError("a rank is 0 to 999")
    return rank * 1_000_000 + secrets.randbelow(1_000_000)


class Campaign:
    """Stands for one term after the other, each with one bid, until one above `gone` has a leader. No Stand is for a
    term up to `above`; who leads there is none that is gone."""

    def __init__(self, ring: Asking, group: str, gone: int, bid: int, node: int | None, above: int = 0) -> None:
        self.ring, self.group, self.gone, self.bid, self.above = ring, group, gone, bid, above
        first = secrets.randbelow(ring.nodes) + 1 if node is None else node
        # The nodes at which it may stand, the first of them first.
        self.places = [(first - 1 + step) % ring.nodes + 1 for step in range(ring.nodes if node is None else 1)]
        self.stood: set[tuple[int, Leader]] = set()
        # When the ring was asked last.
        self.asked = 0.0

    async def run(self, terms: int, seconds: float) -> Election:
        """Stands for so many terms at most, and waits so long in each."""
        known, least, tried = await self.known(), max(self.gone, self.above), 0
        while known is None and tried < terms and (tried == 0 or self.ring.left() > 0.0):
            tried += 1
            if least + tried > LAST:
                raise NoTerm(f"{self.group} has no term above {LAST}: use another name, as `cinoweta move --rename` gives it")
            await self.stand(least + tried)
            known = await self.wait(min(seconds, self.ring.left()))
        if known is None:
            faults = await self.faults()
            text = f"{self.group}: no leader in {tried} terms above {least}"
            raise NoLeader(f"{text}: {', '.join(faults)}" if faults else text, faults)
        is_mine = known in self.stood
        if not is_mine and known.leader.bid == self.bid and any(term == known.term for term, _ in self.stood):
            if not await self.is_of_another(known):
                raise WrongRing(f"who stood at node {self.places[0]} leads at node {known.leader.node}: give all ports")
        return Election(known.term, known.leader, is_mine)

    async def is_of_another(self, known: Led) -> bool:
        """Whether this bid, which leads at a node where this one did not stand, is by chance that of another process, too:
        the node knows it. The term has its leader, so that one more Stand changes nothing."""
        node, line = known.leader.node, f"stand {self.group} {known.term} {self.bid}"
        if node > self.ring.nodes:
            return False
        try:
            await self.ring.do_ask(line, node)
        except PASSING:
            raise
        except Refused as fault:
            return fault.text == f"already {self.bid}"
        finally:
            # Whatever comes of it, it is no Stand of this one.
            self.ring.unanswered.pop((os.getpid(), node, line), None)
        return False

    async def stand(self, term: int) -> None:
        """Stands for the term where it may. Not where somebody else does, or leads in a greater term, who comes to be
        known then. A node that stood as often as it may, or does not answer, is passed by, where another one may be
        taken."""
        for number, place in enumerate(self.places, 1):
            candidate = Leader(place, self.bid)
            try:
                await self.stand_at(term, place)
                self.stood.add((term, candidate))
                return
            except (AlreadyStands, Late, Stale, Retired):
                return
            except TooFar as fault:
                raise too_far(self.group, term, place, fault) from None
            except (NoAnswer, LimitReached, Full, *FAILED) as fault:
                if not isinstance(fault, LimitReached):
                    # It may have been accepted, by a full node at an earlier question, and nobody else has the bid.
                    self.stood.add((term, candidate))
                if isinstance(fault, (Full, *FAILED)) or number == len(self.places):
                    raise

    async def stand_at(self, term: int, place: int) -> None:
        """Stands at this node. Where that has no room, once more behind all that it may retire of the group."""
        try:
            await self.ring.do_stand(self.group, term, self.bid, place)
        except (LimitReached, Full):
            if not await self.make_room(place):
                raise
            await self.ring.do_stand(self.group, term, self.bid, place)

    async def make_room(self, place: int) -> bool:
        """Whether the node retired all terms of the group below the latest that it knows."""
        with contextlib.suppress(CinowetaError):
            known = await self.ring.do_latest(self.group, place)
            if known is not None and known.term > 1:
                await self.ring.do_retire(self.group, known.term, place)
                LOG.info("%s: node %s had no room, and retired the terms below %s", self.group, place, known.term)
                return True
        return False

    async def wait(self, seconds: float) -> Led | None:
        pause = Pause(self.ring, seconds)
        while (known := await self.known()) is None and await pause.take():
            pass
        return known

    async def faults(self) -> list[str]:
        """Which nodes are not well, as `node 3 full`, where the ring's status port is known and tells."""
        try:
            return [] if self.ring.status is None else await self.ring.faults()
        except CinowetaError:
            return []

    async def known(self) -> Led | None:
        """The latest leader, where its term is above the one that is gone."""
        self.asked = time.monotonic()
        known = await self.ring.do_latest(self.group)
        return known if known is not None and known.term > self.gone else None


def too_far(group: str, term: int, place: int, fault: TooFar) -> TooFar:
    """The same refusal, with what to do."""
    words = (f"node {place} takes no Stand of {group} for term {term}. Is that term, or the number of a storage that turned "
             "a write away, one of this ring? If so, `cinoweta raise` stands above it step by step; else ask `latest`")
    return TooFar(fault.number, fault.text, words)


async def retire(ring: Asking, group: str, floor: int) -> None:
    """Each node retires the terms below this one, but those that refuse or are away. Who leads does so all the same, and
    they are asked again in a later term."""
    # Below term 1 there is none.
    if floor > 1:
        asks = ring.within(SECONDS)
        try:
            # Of a process that ends soon the last ones may be asked nothing: no node is always one of those.
            first = secrets.randbelow(asks.nodes)
            for step in range(asks.nodes):
                with contextlib.suppress(CinowetaError):
                    await asks.do_retire(group, floor, (first + step) % asks.nodes + 1)
        finally:
            asks.close()


async def campaign(ring: Asking, campaign: Campaign, terms: int, seconds: float, keep: int) -> Election:
    """Who comes to lead; where that is who campaigned, the terms far below were retired."""
    require_keep(keep)
    try:
        elected = await campaign.run(terms, seconds)
        if elected.is_mine:
            # A session holds one of its node's doors, of which there may be one.
            ring.close()
            await retire(ring, campaign.group, elected.term - keep)
        return elected
    finally:
        ring.close()


async def watch(ring: Asking, group: str, after: int, wait: float | None) -> AsyncIterator[Led]:
    """Each new latest leader of the group, with rising terms above `after`."""
    pause, away = Pause(ring), Pause(ring, float("inf") if wait is None else wait)
    is_away = False
    while True:
        try:
            was_waited, known = await look(ring, group, after)
            away, is_away = Pause(ring, float("inf") if wait is None else wait), False
        except (NoAnswer, OutOfMemory) as fault:
            if not await away.take():
                raise
            if not is_away:
                LOG.warning("%s: waits for the ring: %s", group, fault)
            is_away = True
            continue
        if known is not None and known.term > after:
            after = known.term
            yield known
            pause = Pause(ring)
        elif not was_waited:
            await pause.take()


async def look(ring: Asking, group: str, above: int) -> tuple[bool, Led | None]:
    """The latest leader of the group, and whether the status port waited for one in a term above this one."""
    if ring.status is not None:
        # A session that is kept open while it waits holds a door.
        ring.close()
        try:
            return True, await ring.coming(group, above, WAIT)
        except CinowetaError:
            pass
    return False, await ring.do_latest(group)
