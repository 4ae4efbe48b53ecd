"""How a lock is waited for, held and lost, in steps: `Lock` takes them at once, `AsyncLock` in an event loop."""
import logging
import os
import threading
import time
from collections.abc import Callable
from typing import Any

from . import forks, presence
from .asking import Asking
from .beacon import Beacon, require_text
from .election import KEEP, Campaign, require_keep, retire
from .errors import PASSING, Late, LockTaken, NoAnswer, NotHeld, NotListed, Resigned, Retired, Stale, WrongRing
from .host import is_own
from .kinds import Election, Holder, Led, Waiter
from .pause import Pause
from .presence import ABSENT, Presence
from .showing import SHOWERS, Shown
from .waiting import ENDED, GONE, GRACE, HANDED, KEPT, OVER, Line, answer, ask, holder_of, is_seen

# For so many terms a campaign stands at most, and so long it waits in each, in seconds.
TERMS, SECONDS = 3, 5.0
# A try that began is given so long at least, in seconds.
TRY = 2.0
# The status port is told to wait so long at once, in seconds.
LONGEST_POLL = 30.0
# So long is waited before it is told so, in seconds.
BREAK = 0.02
# So often it is looked whether a lock is lost, in seconds.
EVERY = 1.0
# Across hosts who waited for the end of one holder, or two, leaves the next term so many times so long to who waited for
# more, in seconds: an election takes about as long.
OLDER, ENDS = 0.02, 3
LOG = logging.getLogger("cinoweta")
Tell = Callable[[str], object]


def is_across(ring: Asking, across_hosts: bool | None) -> bool:
    """Whether holders are seen across hosts: as is said, else where the ring is one of another host. `WrongRing` where they
    can't be seen."""
    is_across = not is_own(ring.host) if across_hosts is None else across_hosts
    if is_across and ring.status is None:
        raise WrongRing(f"{ring.host}: who holds a lock across hosts is seen by ringd --status: tell its port")
    if not is_across and not is_own(ring.host):
        raise WrongRing(f"{ring.host}: a holder is seen at a port of 127.0.0.1, or across hosts")
    return is_across


async def find_holder(ring: Asking, group: str, patience: float, across_hosts: bool | None) -> Holder | None:
    lock = Locking(ring, group, 0, patience, None, "", KEEP, across_hosts, None, None)
    known = await ring.do_latest(group)
    ring.close()
    if known is None:
        return None
    if not lock.across and not presence.is_across(known.leader.bid):
        return await holder_of(ring, known, patience)
    return await lock.holder(ring, known) if await lock.is_there(ring, known) else None


async def find_waiters(ring: Asking, group: str, patience: float) -> list[Waiter]:
    known = await ring.do_latest(group)
    ring.close()
    if known is not None and presence.is_across(known.leader.bid):
        raise NotListed(f"{group}: held across hosts, where nobody lists who waits")
    if not is_own(ring.host):
        raise NotListed(f"{group}: who waits is listed on {ring.host} itself alone")
    lines = [] if known is None else await ask(ring, known.leader.bid, f"waiters {known.leader.bid}", patience)
    rows = [line.split(" ", 2) for line in lines[1:]]
    return [Waiter(int(row[1]), row[2]) for row in rows if len(row) == 3 and row[1].isdecimal()]


class Locking:
    """A lock that is not held, waited for, or held in a term."""

    def __init__(self, ring: Asking, group: str, rank: int, patience: float, wait: float | None, text: str, keep: int,
                 across_hosts: bool | None, give_up: float | None, on_lost: Callable[[Any], object] | None) -> None:
        self.across = is_across(ring, across_hosts)
        require_text(text)
        if give_up is not None and give_up <= 0:
            raise ValueError("who is cut off gives up after more than 0 seconds")
        self.ring, self.group, self.rank, self.patience, self.text = ring, group, rank, patience, text
        self.keep, self.wait = require_keep(keep), float("inf") if wait is None else wait
        self.give_up, self.on_lost = give_up, on_lost
        # Within which the rest changes.
        self.mutex = threading.Lock()
        self.sign: Beacon | Presence | None = None
        self.shown: Shown | None = None
        self.is_held, self.is_child = False, False
        # The term in which it leads or led; that of the last holder that is gone, and the number that its own is above;
        # when the ring was asked, and when it was asked a question that it answered; which node was asked last.
        self.led, self.gone, self.above, self.asked, self.told, self.node = 0, 0, 0, 0.0, 0.0, 0
        # Why it was lost last.
        self.why = ""
        forks.register(self)

    def __repr__(self) -> str:
        state = f"held in term {self.led}" if self.is_held else "waited for" if self.sign is not None else "not held"
        return f"{type(self).__name__}({self.ring!r}, {self.group!r}: {state})"

    def forget(self) -> None:
        """In a process that was forked nothing of it is held."""
        self.mutex = threading.Lock()
        if self.sign is not None:
            self.sign, self.shown, self.is_held, self.is_child = None, None, False, True

    @property
    def term(self) -> int:
        """The term in which it is held, or was held last: a fencing number. `NotHeld` in a process that was forked since."""
        if self.is_child:
            raise NotHeld(f"{self.group}: a process that was forked does not hold the lock of its parent")
        return self.led

    @property
    def key(self) -> tuple[str, int, str]:
        return self.ring.host, self.ring.first, self.group

    async def do_acquire(self, tell: Tell | None, cancel: threading.Event | None) -> None:
        """Waits until this process leads."""
        with self.mutex:
            if self.sign is not None:
                raise ValueError(f"{self.group}: the lock is held, or waited for")
            self.sign = sign = self.new_sign()
        asks = self.ring.until(sign.over, cancel)
        try:
            await self.contend(sign, asks, tell or silent)
        except BaseException:
            self.end(sign)
            raise
        finally:
            asks.close()

    def new_sign(self) -> Beacon | Presence:
        if self.across:
            return Presence(self.ring, self.group, self.rank, self.text, self.give_up)
        return Beacon(self.rank, self.text)

    async def contend(self, sign: Beacon | Presence, asks: Asking, tell: Tell) -> None:
        """Stands for the term above that of each holder that is gone, until it leads itself."""
        campaign = Campaign(asks, self.group, self.gone, sign.bid, None, self.above)
        pause, line, told, ends = Pause(asks, self.wait), Line(asks, sign.bid, self.text), "", 0
        try:
            first, resigned = HANDED.get(self.key)
            campaign.gone = max(campaign.gone, resigned)
            while True:
                try:
                    if first:
                        await self.give_way(campaign, line, max(first, 0))
                        first = 0
                    asks.deadline = max(pause.until, time.monotonic() + TRY)
                    # Where the ring came to no leader before, these are the same Stands, and take no room again.
                    election = await campaign.run(TERMS, SECONDS)
                    if election.is_mine and await self.show(sign, asks, election):
                        self.take(sign, election, campaign.asked)
                        self.ring.begin(retire(self.ring, self.group, election.term - self.keep))
                        return
                    if not election.is_mine:
                        await self.await_end(Led(election.term, election.leader), campaign, line, pause, tell)
                        ends += 1
                        if self.across and not self.rank and ends < ENDS:
                            # Nobody tells who came first.
                            await asks.sleep(OLDER * (ENDS - ends))
                    campaign.gone = election.term
                except PASSING as fault:
                    if not await pause.take():
                        raise
                    if told != str(fault):
                        told = str(fault)
                        tell(f"waits for the ring: {told}")
                        LOG.warning("%s: waits for the ring: %s", self.group, told)
                finally:
                    asks.close()
        finally:
            line.leave()

    async def show(self, sign: Beacon | Presence, asks: Asking, election: Election) -> bool:
        """Whether others see from now on that it is there, or the term is over already. A beacon answers already."""
        if isinstance(sign, Presence):
            # A session holds one of its node's doors, of which there may be one.
            asks.close()
            shown = sign
            try:
                await asks.aside(lambda: shown.show(election.term, election.leader.node, asks.check))
            except (Late, Stale, Retired):
                return False
        return True

    def take(self, sign: Beacon | Presence, election: Election, told: float) -> None:
        with self.mutex:
            self.require(sign)
            self.is_held, self.is_child, self.led = True, False, election.term
            self.told, self.asked = told, time.monotonic()
            self.ring.looks.add(self)
            if isinstance(sign, Beacon) and self.ring.status is not None:
                place = self.ring.host, self.ring.first, self.ring.status, election.leader.node
                self.shown = SHOWERS.add(Shown(self.group, election.term, sign.bid, self.text), place)
        LOG.info("%s: holds the lock in term %s", self.group, election.term)

    def require(self, sign: Beacon | Presence) -> None:
        if self.sign is not sign:
            raise Resigned(f"{self.group}: it resigned while it waited")

    async def await_end(self, known: Led, campaign: Campaign, line: Line, pause: Pause, tell: Tell) -> None:
        """Waits until who leads so is gone, and this one comes next. `LockTaken` where the time is over before."""
        asks, heard, told = campaign.ring, ENDED, tell
        asks.close()
        while heard == ENDED:
            heard = await self.stay(asks, known, line, pause, told)
            told = silent
        if heard == OVER:
            raise await self.taken(asks, known)
        campaign.gone = known.term
        if heard.startswith("after "):
            await self.give_way(campaign, line, number(heard[6:]))
            return
        line.leave()
        if heard == GONE and line.place > 1:
            await self.give_way(campaign, line, 0)

    async def stay(self, asks: Asking, known: Led, line: Line, pause: Pause, tell: Tell) -> str:
        """What comes of a wait in the line of who leads so: `TURN`, `GONE`, `OVER`, or `after BID`; `ENDED` where he is there
        still, and keeps no line, say."""
        is_near = not self.across and not presence.is_across(known.leader.bid)
        heard = await line.join(known.leader.bid, self.patience) if is_near else ENDED
        if heard == KEPT:
            await self.tell_holder(asks, known, tell)
            heard = await line.hear(self.patience, pause.until)
        if heard != ENDED:
            return heard
        line.leave()
        if not await self.is_there(asks, known):
            return GONE
        await self.tell_holder(asks, known, tell)
        if self.across and await self.is_told(asks, known, pause):
            return ENDED
        return ENDED if await pause.take() else OVER

    async def is_told(self, asks: Asking, known: Led, pause: Pause) -> bool:
        """Whether the status port told within the time that who leads so is not present any more, or a greater term."""
        # Whatever the port answers, it is asked no more often.
        await asks.sleep(BREAK)
        left = min(pause.until - time.monotonic(), LONGEST_POLL)
        try:
            return left >= 1.0 and await asks.held(self.group, known, int(left)) is not None
        except (NoAnswer, WrongRing):
            # No place is free for who waits, or it is an earlier ringd.
            return False

    async def tell_holder(self, asks: Asking, known: Led, tell: Tell) -> None:
        if tell is not silent:
            tell(f"waits for {in_words(known, await self.holder(asks, known))}")

    async def give_way(self, campaign: Campaign, line: Line, first: int) -> None:
        """Leaves the next term for a moment to who comes first, whose bid this is, and waits in its line; or to whoever
        does, where that is 0. It is one moment, also where one names another one."""
        until = time.monotonic() + GRACE
        if not first:
            pause = Pause(campaign.ring, GRACE)
            while await campaign.known() is None and await pause.take():
                pass
        while first and first != line.own and time.monotonic() < until:
            heard = await line.join(first, GRACE)
            if heard == KEPT:
                heard = await line.hear(GRACE, until)
            first = number(heard[6:]) if heard.startswith("after ") else 0
            if heard != OVER:
                line.leave()

    async def is_there(self, asks: Asking, known: Led) -> bool:
        """Whether who leads so is seen in time, or could not be asked. `WrongRing` where that is by the other kind of
        clients."""
        bid = known.leader.bid
        if presence.is_nobody(bid):
            return False
        is_present = False
        if self.across or presence.is_across(bid) and asks.status is not None:
            is_present = await presence.is_there(asks, self.group, known, min(self.patience, ABSENT))
        if self.across != presence.is_across(bid) and await self.is_hidden(asks, known, is_present):
            return True
        return is_present if self.across else await is_seen(asks, bid, self.patience)

    async def is_hidden(self, asks: Asking, known: Led, is_present: bool) -> bool:
        """Whether who leads so and is of the other kind could not be asked. `WrongRing` where it is there, as far as anything
        tells. Who is present, has the bid of a beacon and does not answer there is one of an earlier release, across hosts
        too."""
        bid, is_hidden, how = known.leader.bid, False, "on one host, and this client is told to hold it across hosts"
        if not self.across:
            is_wrong, how = is_present or asks.status is None, "across hosts, and this client is not told to"
        elif is_own(asks.host):
            lines, is_asked = await answer(asks, bid, str(bid), self.patience)
            is_wrong, is_hidden = lines == [str(bid)], not is_asked
        else:
            is_wrong = not is_present
        if is_wrong:
            raise WrongRing(f"{self.group}: held {how}, by {in_words(known, None)}: tell all of its clients the same. Where "
                            f"nobody holds it any more, cinoweta raise has it anew")
        return is_hidden

    async def holder(self, asks: Asking, known: Led) -> Holder | None:
        if self.across:
            return await presence.holder_of(asks, self.group, known)
        return await holder_of(asks, known, self.patience)

    async def taken(self, asks: Asking, known: Led) -> LockTaken:
        holder = await self.holder(asks, known)
        told = holder or Holder(known.term, known.leader, None, "")
        return LockTaken(f"{self.group}: held by {in_words(known, holder)}", told)

    async def do_look(self) -> bool:
        """Whether the lock is lost, by what the ring told within a second."""
        if not self.is_held or self.is_other_process():
            return True
        if time.monotonic() - self.asked >= EVERY:
            await self.ring.looks.look(self)
        elif self.gives_up():
            self.tell_loss()
        return not self.is_held

    def is_other_process(self) -> bool:
        sign = self.sign
        return sign is None or sign.process != os.getpid()

    def ends_below(self, term: int) -> bool:
        """Whether it was held in a lower term, and is lost now."""
        return self.loses(lambda: term > self.led, f"a greater term is known: {term}")

    def gives_up(self) -> bool:
        """Whether it was held, and is given up now, since no node told anything for so long."""
        most = float("inf") if self.give_up is None else self.give_up
        return self.loses(lambda: time.monotonic() - self.told >= most, f"no node answered for {most} seconds")

    def loses(self, is_so: Callable[[], bool], why: str) -> bool:
        with self.mutex:
            sign = self.sign if self.is_held and is_so() else None
        if sign is None:
            return False
        self.why = why
        LOG.warning("%s: lost the lock in term %s: %s", self.group, self.led, why)
        return self.end(sign)

    def tell_loss(self) -> None:
        if self.on_lost is not None:
            try:
                self.on_lost(self)
            except BaseException as fault:
                # What would end the process ends another thread alone, and that unsaid: it looks for the other locks too.
                if not isinstance(fault, Exception) and threading.current_thread() is threading.main_thread():
                    raise
                LOG.exception("%s: on_lost", self.group)

    def resign(self, above: int = 0) -> None:
        """Gives the lock back: who waits first is told so, across hosts all who wait. Where this one takes it again its term
        is above this number, as the one that turned a write away, whose holder is not gone for that. An `acquire` that
        waits meanwhile raises `Resigned`. Any thread may call it."""
        with self.mutex:
            self.above = max(self.above, above)
            sign = self.sign
        if sign is not None and self.end(sign):
            LOG.info("%s: resigned", self.group)
            self.see_off(sign)

    def see_off(self, sign: Beacon | Presence) -> None:
        """Waits a moment until others may see that it resigned, where a wait keeps nobody else waiting."""

    def end(self, sign: Beacon | Presence) -> bool:
        """Ends it, if that is still its sign. Whether it was held."""
        with self.mutex:
            if self.sign is not sign:
                return False
            was_held, self.sign, self.is_held = self.is_held, None, False
            shown, self.shown = self.shown, None
            # The term in which this one led is over; a parent's is not.
            self.gone = max(self.gone, self.led) if was_held else self.gone
            self.ring.looks.remove(self)
        first = sign.close()
        if shown is not None:
            SHOWERS.remove(shown)
        if was_held:
            HANDED.put(self.key, first, self.led)
        return was_held


def silent(_text: str) -> None:
    """Tells nobody for whom is waited."""


def number(text: str) -> int:
    """A bid; 0 where that is none."""
    return int(text) if text.isascii() and text.isdecimal() and len(text) <= 9 else 0


def in_words(known: Led, holder: Holder | None) -> str:
    text = f" ({holder.text})" if holder and holder.text else ""
    place = f"node {known.leader.node} in term {known.term}"
    return f"{place}{text}" if holder is None or holder.pid is None else f"process {holder.pid}{text}, which leads at {place}"
