"""A lock of one host is shown: where it leads its process tells the node of it, so that `ringd --status` has its holder
`present`, with its text. Nothing rests on that, and who takes a lock or gives it back never waits for it."""
import contextlib
import random
import threading
import time

from . import forks, status
from .errors import AlreadyStands, Late, Refused, Retired, Stale, WrongRing, refusal
from .host import address
from .session import Session, Teller

# So often a thread does what there is to do, in seconds, and asks over its session, so that it is not silent. A lock is
# shown once it was held for so long: one that was given back before costs nothing. Who resigns wakes nobody: the next one
# is being elected then.
EVERY = 0.5
# So long a connection or an answer is waited for, in seconds.
SECONDS = 1.0
# So often is looked whether the node has a door free beside, in seconds: behind two where none was it is given back.
LOOKS = 2.0
# So long it rests at first, and at most, behind a fault or where no door is free, and up to twice that, in seconds.
REST, LONGEST = 1.0, 8.0
# So many are told at once.
AT_ONCE = 50
# What says that its term is over.
OVER = (AlreadyStands, Late, Stale, Retired)


class Shown:
    """What one lock is shown by."""

    def __init__(self, group: str, term: int, bid: int, text: str) -> None:
        self.group, self.term, self.text = group, term, text
        self.lines = [f"stand {group} {term} {bid}", *([f"tell {group} {text}"] if text else [])]
        self.own, self.since = ("stood", f"no 3 already {bid}"), time.monotonic()
        self.shower: Shower | None = None
        # Whether it was held for so long, and whether the node says that it is over; the session that was told it last.
        self.is_due, self.is_over = False, False
        self.session: Session | None = None

    def hear(self, answers: list[str], session: Session) -> None:
        """Takes the node's answers. `Refused` where it is to be asked again."""
        # The Stand alone counts: an earlier ringd knows no `tell`.
        refused = refusal(answers[0])
        if answers[0] in self.own:
            self.session = session
        elif isinstance(refused, OVER):
            self.is_over = True
        else:
            raise refused or WrongRing(f"{answers[0]!r} is no answer of a node")


class Shower(Teller):
    """Shows all locks that this process holds at one node, by a thread of its own, in one session, which holds one of
    the node's doors, and only as long as it leaves another one free."""

    def __init__(self, place: tuple[str, int, int, int]) -> None:
        self.host, self.first, self.status, self.node = self.place = place
        # Those that are held, and those that may have been shown and are held no more.
        self.held: dict[Shown, None] = {}
        self.gone: list[Shown] = []
        # When another one is tried, how long it rests next, when was looked for doors, and in how many none was free.
        self.again, self.rests, self.looked, self.taken = 0.0, REST, 0.0, 0
        super().__init__()

    def go_on(self) -> None:
        """Goes on until nothing is held there any more."""
        is_over = False
        while not is_over:
            time.sleep(EVERY)
            is_over, due, gone = SHOWERS.change(self)
            try:
                self.step([each for each in due if not each.is_over], gone)
            except Exception:
                # It goes on: nobody else does so for the locks.
                self.rest()

    def rest(self) -> None:
        """Gives the door back for a while, which is not the same for all processes."""
        self.end()
        self.again = time.monotonic() + self.rests * (1.0 + random.random())
        self.rests = min(2.0 * self.rests, LONGEST)

    def step(self, due: list[Shown], gone: list[Shown]) -> None:
        """Has the node know who is present, and who is so no more."""
        if self.session is not None:
            for each in gone:
                if each.session is self.session:
                    self.session.ask(f"resign {each.group} {each.term}", SECONDS)
        if not due:
            self.end()
            return
        session = self.session or self.open()
        if session is None:
            return
        new = [each for each in due if each.session is not session]
        for some in (new[place:place + AT_ONCE] for place in range(0, len(new), AT_ONCE)):
            answers = iter(session.ask_all([line for each in some for line in each.lines], SECONDS))
            for each in some:
                each.hear([next(answers) for _ in each.lines], session)
        if not new:
            self.ask(session, due[0])
        self.rests = REST

    def ask(self, session: Session, shown: Shown) -> None:
        """Asks over it, so that it is not silent, and now and then whether it keeps the last door."""
        # A session has 10,000 lines beside those that tell.
        told = session.ask(shown.lines[1] if shown.text else f"latest {shown.group}", SECONDS)
        shown.is_over = shown.text != "" and told == "none"
        if time.monotonic() - self.looked >= LOOKS:
            self.taken = 0 if self.free() else self.taken + 1
            if self.taken > 1:
                self.rest()

    def open(self) -> Session | None:
        """A session, where the time has come and another door stays free."""
        if time.monotonic() < self.again:
            return None
        if self.free() < 2:
            self.rest()
            return None
        self.session, self.taken = Session(self.host, self.first + self.node - 1, SECONDS), 0
        return self.session

    def free(self) -> int:
        """How many doors of the node are free, without the one that is kept."""
        self.looked = time.monotonic()
        for node in status.status(self.status, SECONDS, host=self.host)["nodes"]:
            if node["node"] == self.node:
                return int(node["sessions"]["doors"]) - int(node["sessions"]["busy"])
        raise WrongRing(f"{address(self.host, self.status)} tells of no node {self.node}")


class Showers:
    """Those of this process, by host, first port, status port and node."""

    def __init__(self) -> None:
        self.mutex, self.places = threading.Lock(), dict[tuple[str, int, int, int], Shower]()
        forks.register(self)

    def forget(self) -> None:
        """A process that was forked shows nothing."""
        self.mutex, self.places = threading.Lock(), {}

    def add(self, shown: Shown, place: tuple[str, int, int, int]) -> Shown:
        """Has it be shown soon."""
        with self.mutex:
            shower = self.places.get(place)
            if shower is None:
                shower = Shower(place)
                # Where the system gives no thread it is held unshown.
                with contextlib.suppress(RuntimeError):
                    threading.Thread(target=shower.go_on, daemon=True).start()
                    self.places[place] = shower
            shower.held[shown], shown.shower = None, shower
        return shown

    def remove(self, shown: Shown) -> None:
        """Has it be shown no more, soon."""
        with self.mutex:
            shower, shown.shower = shown.shower, None
            if shower is not None:
                del shower.held[shown]
                shower.gone.extend([shown] * shown.is_due)

    def change(self, shower: Shower) -> tuple[bool, list[Shown], list[Shown]]:
        """Whether nothing is held there any more, what is for so long, and what is so no more."""
        due = time.monotonic() - EVERY
        with self.mutex:
            for shown in shower.held:
                shown.is_due = shown.is_due or shown.since <= due
            gone, shower.gone = shower.gone, []
            if not shower.held and self.places.get(shower.place) is shower:
                del self.places[shower.place]
            return not shower.held, [shown for shown in shower.held if shown.is_due], gone


SHOWERS = Showers()
