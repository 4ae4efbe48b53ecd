"""The session that all locks of this process across hosts have with a node, of which `ringd --status` tells that their holder
is present."""
import threading

from . import forks
from .errors import CinowetaError, NoAnswer, WrongRing, refusal
from .host import address
from .session import Session, Teller

# So often the session is asked over, so that it is not silent, and so long an answer is waited for, in seconds. So long a
# connection is tried: the system tries again each second then, also where the host was away.
EVERY, SECONDS, CONNECTS = 0.5, 3.0, 1.5
# So many Stands are asked for at once, so that who has a thousand is present again within moments.
AT_ONCE = 50


class Stand:
    """What a lock is present by: its node stands so, as a session of this process was told."""

    def __init__(self, group: str, term: int, bid: int, text: str) -> None:
        self.group, self.term, self.bid = group, term, bid
        self.lines = [f"stand {group} {term} {bid}", *([f"tell {group} {text}"] if text else [])]
        self.keeper: Keeper | None = None
        # The session that was told so last.
        self.session: Session | None = None
        # Set once the node answered, or the fault is there instead; and once it is present no more.
        self.answered, self.ended = threading.Event(), threading.Event()
        self.fault: CinowetaError | None = None

    def hear(self, answer: str, session: Session) -> None:
        """Takes the node's answer."""
        if answer in ("stood", f"no 3 already {self.bid}"):
            self.session = session
            self.settle(None)
        else:
            self.settle(refusal(answer) or WrongRing(f"{answer!r} is no answer of a node"))

    def settle(self, fault: CinowetaError | None) -> None:
        """Says to who waits whether it is present."""
        if not self.answered.is_set():
            self.fault = fault
            self.answered.set()


class Keeper(Teller):
    """Keeps one session open with a node, in which all Stands of this process there are told, by a thread of its own, which
    alone asks over it, and opens another one where it breaks off. It holds one of the node's doors."""

    def __init__(self, host: str, port: int) -> None:
        self.host, self.port = host, port
        # The Stands that are present, or come to be; those that are so no more; and what tells that either changed.
        self.held: dict[Stand, None] = {}
        self.gone: list[Stand] = []
        self.changed = threading.Event()
        super().__init__()

    def keep(self) -> None:
        """Goes on until nothing is held any more."""
        while True:
            self.changed.wait(EVERY)
            self.changed.clear()
            with KEEPERS.mutex:
                held, gone, self.gone = [*self.held], self.gone, []
            is_open = self.session is not None and self.session.is_usable()
            try:
                if held and not is_open:
                    # A process that is forked from here on leaves it to this one.
                    self.session = Session(self.host, self.port, CONNECTS)
                if self.session is not None and self.session.is_usable():
                    self.resign(self.session, gone)
                    self.stand(self.session, held)
            except Exception as fault:
                # It goes on: nobody else does so for the locks. That an old session ended says nothing of a new one.
                self.end()
                if is_open:
                    self.changed.set()
                else:
                    for each in held:
                        each.settle(NoAnswer(f"{address(self.host, self.port)}: {fault or type(fault).__name__}"))
            if not held:
                self.end()
            for each in gone:
                each.ended.set()
            if not held:
                return

    def resign(self, session: Session, gone: list[Stand]) -> None:
        """Says who is present no more. Where the node does not take that, the others are told in a new session."""
        for each in gone:
            if each.session is session:
                answer = session.ask(f"resign {each.group} {each.term}", SECONDS)
                if answer not in ("resigned", "none"):
                    raise ConnectionError("it takes no end")

    def stand(self, session: Session, held: list[Stand]) -> None:
        """Tells those that the session was not told yet; where there are none a question, so that it is not silent."""
        new = [each for each in held if each.session is not session]
        for some in (new[place:place + AT_ONCE] for place in range(0, len(new), AT_ONCE)):
            answers = iter(session.ask_all([line for each in some for line in each.lines], SECONDS))
            for each in some:
                # The Stand alone is answered: an earlier ringd knows no `tell`.
                each.hear([next(answers) for _ in each.lines][0], session)
        if held and not new:
            session.ask(f"latest {held[0].group}", SECONDS)


class Keepers:
    """Those of this process, by the host and the port of their node."""

    def __init__(self) -> None:
        self.mutex, self.places = threading.Lock(), dict[tuple[str, int], Keeper]()
        forks.register(self)

    def forget(self) -> None:
        """A process that was forked keeps nothing."""
        self.mutex, self.places = threading.Lock(), {}

    def add(self, stand: Stand, place: tuple[str, int]) -> None:
        """Has it be told at the node."""
        with self.mutex:
            keeper = self.places.get(place)
            if keeper is None:
                keeper = Keeper(*place)
                threading.Thread(target=keeper.keep, daemon=True).start()
                self.places[place] = keeper
            keeper.held[stand], stand.keeper = None, keeper
        keeper.changed.set()

    def remove(self, stand: Stand) -> None:
        """Has it be told no more. The last one ends the session."""
        with self.mutex:
            keeper, stand.keeper = stand.keeper, None
            if keeper is None:
                return
            del keeper.held[stand]
            keeper.gone.append(stand)
            if not keeper.held:
                del self.places[keeper.host, keeper.port]
        keeper.changed.set()


KEEPERS = Keepers()
