"""The groups of a ring go on above terms that they had: in a new ring, or in their own."""
import secrets
from collections.abc import Iterable, Iterator, Mapping

from . import status
from .beacon import SPREAD
from .election import LAST
from .errors import CinowetaError, NoAnswer, NoLeader, NoTerm, TooFar, WrongRing
from .host import OWN, address, addresses
from .kinds import Led
from .pause import Pause
from .ring import Ring
from .steps import at_once

# So long a leader is waited for, in seconds.
SECONDS = 15.0
# A term that has a leader takes so many bytes of a snapshot at most, and its group's name. A node makes no checkpoint by
# itself whose snapshot takes more than this part of its capacity.
TERM, PART = 15, 4
# What came of each group: its leader, or why it has none.
Lifted = Iterator[tuple[str, Led | CinowetaError]]


def terms(port: int, seconds: float, *, host: str = OWN) -> dict[str, int]:
    """Each group of the ring that tells of itself at this port, with the greatest term that any of its nodes knows."""
    known: dict[str, int] = {}
    for node in range(1, len(status.status(port, seconds, host=host)["nodes"]) + 1):
        for group, term, _, _ in status.leaders(port, node, seconds, host=host):
            known[group] = max(term, known.get(group, 0))
    return known


def move(port: int, ring: Ring, *, host: str = OWN, rename: Mapping[str, str] = {}, skip: Iterable[str] = ()) -> Lifted:
    """Each group of the ring that tells of itself at this port, and its leader in the new one, once each node there
    knows one in a greater term: where none does, who calls stands for the next term, and for nothing else. So no term of
    the old ring is led again, and what was moved stays so where this is broken off and begun again. A group that can not
    be moved, whose fault is given, keeps no other one from it. The names of `rename` are new ones there; groups of `skip`
    stay behind. The clients have to be away from both rings; `WrongRing` where a group of the old one has a new term
    behind it all, and before any Stand where the new one has no room, as far as its `status` port is told."""
    ports = {node.get("port") for node in status.status(port, ring.timeout, host=host)["nodes"]}
    if ports & {*ring.ports} and (host == ring.host or addresses(host) & addresses(ring.host)):
        raise WrongRing(f"{address(host, port)} tells of the new ring itself")
    left = {*skip}
    moved = {group: term for group, term in terms(port, ring.timeout, host=host).items() if group not in left}
    names = new_names(moved, rename)
    if ring.status is not None:
        require_room(ring, {names[group]: term for group, term in moved.items()})
    for group, term in sorted(moved.items()):
        if term < LAST or group in rename:
            # A new name has all terms before it.
            yield names[group], lifted(ring, names[group], 0 if term == LAST else term)
        else:
            yield group, NoTerm(f"{group} has no term above {LAST}: give it a new name, by --rename {group}=NEW")
    for group, term in terms(port, ring.timeout, host=host).items():
        if group not in left and term > moved.get(group, 0):
            raise WrongRing(f"{group}: the old ring elects on, in term {term} now: end its clients, and move again")


def new_names(moved: Mapping[str, int], rename: Mapping[str, str]) -> dict[str, str]:
    """The name of each group in the new ring. ValueError where two have one, or one that is renamed is not there."""
    for group in rename:
        if group not in moved:
            raise ValueError(f"{group}: the old ring has no such group to rename")
    names = {group: rename.get(group, group) for group in moved}
    for group, name in names.items():
        if list(names.values()).count(name) > 1:
            raise ValueError(f"{name}: two groups would have this name")
    return names


def require_room(ring: Ring, wanted: Mapping[str, int]) -> None:
    """`WrongRing` where the ring, by its status port, has not the Stands or the bytes for a term of each group that is not
    there above this one."""
    nodes = status.status(ring.status or 0, ring.timeout, host=ring.host)["nodes"]
    if [node.get("port") for node in nodes] != [*ring.ports]:
        raise WrongRing(f"{ring.host}:{ring.status} tells of another ring than the new one")
    try:
        left = sum(node["stands"]["left"] for node in nodes)
        rooms = {place: node["journal"]["capacity"] // PART - node["journal"]["snapshot"] for place, node in enumerate(nodes, 1)}
    except (LookupError, TypeError):
        raise WrongRing(f"{ring.host}:{ring.status} tells of no room of the new ring: is it that of ringd --status, of this release? "
                        "Without --status it is not asked") from None
    there = terms(ring.status or 0, ring.timeout, host=ring.host)
    groups = [group for group, term in wanted.items() if there.get(group, 0) <= term]
    if len(groups) > left:
        raise WrongRing(f"the new ring has {left} Stands left, and {len(groups)} groups take one each: leave some behind, by --skip")
    needed = sum(TERM + len(group) for group in groups)
    for place, room in rooms.items():
        if needed > room:
            raise WrongRing(f"node {place} of the new ring has {max(room, 0)} bytes for a snapshot, and {len(groups)} groups "
                            f"take {needed}: make it with a greater capacity, or leave some behind, by --skip")


def raise_by(ring: Ring, by: int, groups: Iterable[str]) -> Lifted:
    """Each of these groups that the ring knows, with a leader in a term this much above its latest one; who calls stands for
    it. None of them is all that the ring's status port tells."""
    named, port = [*groups], ring.status
    if not named:
        if port is None:
            raise ValueError("no group, and no port of ringd --status that tells all: tell that by --status")
        named = [*terms(port, ring.timeout, host=ring.host)]
    for group in sorted(named):
        try:
            last = max(known.term if known else 0 for known in (ring.latest(group, node) for node in range(1, ring.nodes + 1)))
        except NoAnswer:
            raise
        except CinowetaError as fault:
            yield group, fault
            continue
        yield group, lifted(ring, group, last + by - 1)


def raise_above(ring: Ring, floors: Mapping[str, int]) -> Lifted:
    """Each of these groups, with a leader in a term above this one: where none is known, who calls stands for the next."""
    for group, term in sorted(floors.items()):
        yield group, lifted(ring, group, term)


def lifted(ring: Ring, group: str, gone: int) -> Led | CinowetaError:
    """The group's leader in a term above this one, once each node knows one; else the fault. `NoAnswer` where no node answers."""
    if gone >= LAST:
        return NoTerm(f"{group} has no term above {LAST}")
    try:
        return climb(ring, group, gone)
    except NoAnswer:
        raise
    except CinowetaError as fault:
        return fault
    finally:
        ring.close()


def climb(ring: Ring, group: str, gone: int) -> Led:
    """The same, by a leader in the greatest term that a node takes where that is not above this one, and on from there."""
    most = 0
    while True:
        try:
            return lift(ring, group, gone)
        except TooFar as fault:
            if not most < fault.most <= gone:
                raise
            most = fault.most
        climb(ring, group, most - 1)


def lift(ring: Ring, group: str, gone: int) -> Led:
    # Whoever waits for a lock looks for this leader at port 0, where nobody is. Nothing is retired.
    election = ring.campaign_with(secrets.randbelow(SPREAD), group, gone, terms=1, seconds=SECONDS, keep=LAST)
    await_all(ring, group, gone)
    return Led(election.term, election.leader)


def await_all(ring: Ring, group: str, gone: int) -> None:
    """Waits until each node knows a leader above this term, so that none takes a Stand for one up to it."""
    for node in range(1, ring.nodes + 1):
        pause = Pause(ring, SECONDS)
        while (known := ring.latest(group, node)) is None or known.term <= gone:
            if not at_once(pause.take()):
                raise NoLeader(f"{group}: node {node} knows no leader above term {gone}")
    ring.close()
