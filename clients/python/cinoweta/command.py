"""The command `cinoweta`."""
import argparse
import json
import os
import pathlib
import shutil
import sys
from collections.abc import Callable
from typing import Any

from . import backup as copying
from . import move as moving
from . import sizing, status
from .errors import CinowetaError, LockTaken, NoAnswer, NoLeader, NotListed, Refused, WrongRing
from .host import OWN, place
from .lock import Lock
from .lock import holder as holder_of
from .lock import waiters as waiters_of
from .ring import Ring
from .words import arguments

NONE, WORDS, NO_ANSWER, NO_LEADER, LOST, TAKEN, SYSTEM, NOT_LISTED = 1, 2, 3, 4, 5, 6, 7, 8
CODES: dict[type[Exception], int] = {NoAnswer: NO_ANSWER, copying.NoCopy: NONE, NoLeader: NO_LEADER, LockTaken: TAKEN,
                                    NotListed: NOT_LISTED}
# As a shell has it.
NOT_STARTED, NO_PROGRAM = 126, 127
# The status of a refusal is its number and this.
REFUSED = 10


def main(words: list[str] | None = None) -> int:
    words = sys.argv[1:] if words is None else words
    # What stands behind `--` is the command of a lock, whatever it looks like.
    cut = words.index("--") if "--" in words else len(words)
    parser = arguments()
    told, more = parser.parse_known_args(words[:cut])
    told.run = words[cut + 1:]
    if told.command == "lock" and not told.run:
        parser.error("lock takes a COMMAND behind --, as in: cinoweta lock jobs -- ./work")
    if more:
        parser.error(f"unrecognized arguments: {' '.join(more)}")
    if told.run and told.command != "lock":
        parser.error("no other command than lock takes a COMMAND behind --")
    try:
        return COMMANDS[told.command](told)
    except BrokenPipeError:
        # Who reads has enough. What is still to be written at the end goes nowhere.
        os.dup2(os.open(os.devnull, os.O_WRONLY), sys.stdout.fileno())
        return 128 + 13
    except KeyboardInterrupt:
        return 128 + 2
    except (CinowetaError, OSError, ValueError) as fault:
        return tell_fault(told, fault)


def ring_of(told: argparse.Namespace) -> Ring:
    if not told.ring:
        raise ValueError("no ring: tell its ports by --ring or CINOWETA_RING, as 7101-7103")
    ring = Ring.parse(told.ring, timeout=told.timeout)
    text = getattr(told, "status", None)
    if not text:
        return ring
    host, port = place(text, ring.host)
    if host != ring.host:
        raise WrongRing(f"{text}: the ring is one of {ring.host}")
    return Ring.parse(told.ring, timeout=told.timeout, status=port)


def status_of(told: argparse.Namespace, text: str | None) -> tuple[str, int]:
    """The host and the port of `ringd --status`. A port alone is one of the ring's host, where a ring is told."""
    if not text:
        raise ValueError("no port: tell that of ringd --status by --port or CINOWETA_STATUS")
    return place(text, Ring.parse(told.ring).host if told.ring else OWN)


def show(told: argparse.Namespace, text: str, /, **values: Any) -> None:
    print(json.dumps(values) if told.json else text, flush=True)


def tell_fault(told: argparse.Namespace, fault: Exception, place: str = "") -> int:
    """Tells a fault, and where it is one, on standard error, and gives its status."""
    code = CODES.get(type(fault), WORDS)
    values: dict[str, Any] = {"error": f"{place}{fault}"}
    if isinstance(fault, Refused):
        code = REFUSED + fault.number
        values |= {"refusal": fault.number, "text": fault.text}
    elif isinstance(fault, OSError):
        code = SYSTEM
    print(json.dumps(values) if told.json else f"cinoweta: {place}{fault}", file=sys.stderr)
    return code


def stand(told: argparse.Namespace) -> int:
    with ring_of(told) as ring:
        ring.stand(told.group, told.term, told.bid, told.node)
    show(told, "stood", group=told.group, term=told.term, node=told.node, bid=told.bid)
    return 0


def who(told: argparse.Namespace) -> int:
    with ring_of(told) as ring:
        leader = ring.who(told.group, told.term, told.node)
    text = f"leader {leader.node} {leader.bid}" if leader else "none"
    show(told, text, group=told.group, term=told.term, leader=leader and leader._asdict())
    return 0 if leader else NONE


def latest(told: argparse.Namespace) -> int:
    with ring_of(told) as ring:
        known = ring.latest(told.group, told.node)
    if known is None:
        show(told, "none", group=told.group, term=None, leader=None)
        return NONE
    show_term(told, known.term, known.leader._asdict())
    return 0


def show_term(told: argparse.Namespace, term: int, leader: dict[str, int], **more: Any) -> None:
    text = f"term {term} leader {leader['node']} {leader['bid']}"
    show(told, text, group=told.group, term=term, leader=leader, **more)


def retire(told: argparse.Namespace) -> int:
    """A node that refuses, or is away, keeps no other one from it: its fault is told, and the first gives the status."""
    if told.all != (told.group is None):
        raise ValueError("retire takes a GROUP, or --all")
    with ring_of(told) as ring:
        if told.all:
            return retire_all(told, ring)
        floor = least_latest(ring, told.group) if told.floor is None else told.floor
        if floor is None:
            show(told, "none", group=told.group, node=None, floor=None)
            return NONE
        nodes = range(1, ring.nodes + 1) if told.node is None else [told.node]
        codes = [retire_at(told, ring, told.group, max(floor - told.keep, 1), node) for node in nodes]
    return next((code for code in codes if code), 0)


def retire_all(told: argparse.Namespace, ring: Ring) -> int:
    """Each node retires, of each group that it knows, all below its own latest term."""
    if ring.status is None:
        raise ValueError("no port: tell that of ringd --status by --status or CINOWETA_STATUS")
    codes: list[int] = []
    for node in range(1, ring.nodes + 1) if told.node is None else [told.node]:
        for group, term, _, _ in [*status.leaders(ring.status, node, told.timeout, host=ring.host)]:
            if term - told.keep > 1:
                codes.append(retire_at(told, ring, group, term - told.keep, node, f"{group} "))
    return next((code for code in codes if code), 0)


def retire_at(told: argparse.Namespace, ring: Ring, group: str, floor: int, node: int, name: str = "") -> int:
    """Has one node retire, and gives the status."""
    try:
        known = ring.retire(group, floor, node)
    except CinowetaError as fault:
        return tell_fault(told, fault, f"{name}node {node}: ")
    show(told, f"{name}node {node} retired {known}", group=group, node=node, floor=known)
    return 0


def least_latest(ring: Ring, group: str) -> int | None:
    """The greatest term that all nodes have come to; None where one knows no leader."""
    known = [ring.latest(group, node) for node in range(1, ring.nodes + 1)]
    terms = [each.term for each in known if each is not None]
    return min(terms) if len(terms) == len(known) else None


def campaign(told: argparse.Namespace) -> int:
    with ring_of(told) as ring:
        election = ring.campaign(told.group, told.gone, told.rank, told.node, told.terms, told.wait, told.keep)
    show_term(told, election.term, election.leader._asdict(), is_mine=election.is_mine)
    return 0 if election.is_mine else NONE


def watch(told: argparse.Namespace) -> int:
    with ring_of(told) as ring:
        for number, known in enumerate(ring.watch(told.group, told.after, told.wait), 1):
            show_term(told, known.term, known.leader._asdict())
            if number == told.count:
                break
    return 0


def show_leaders(told: argparse.Namespace) -> int:
    code = NONE
    host, port = status_of(told, told.port)
    for group, term, node, bid in status.leaders(port, told.node, told.timeout, host=host, after=told.after):
        code = 0
        text = f"{group} term {term} leader {node} {bid}"
        show(told, text, group=group, term=term, leader={"node": node, "bid": bid})
    return code


def show_status(told: argparse.Namespace) -> int:
    host, port = status_of(told, told.port)
    faults, ring = status.health(port, told.timeout, host=host), status.status(port, told.timeout, host=host)
    show(told, "\n".join([*(faults or ["well"]), status.table(ring)]), **{"health": faults, **ring})
    return NONE if faults else 0


def lock(told: argparse.Namespace) -> int:
    if shutil.which(told.run[0]) is None:
        print(f"cinoweta: {told.run[0]}: no such program", file=sys.stderr)
        return NO_PROGRAM
    held = Lock(ring_of(told), told.group, told.rank, told.patience, told.wait, told.text, told.keep,
                across_hosts=told.across_hosts, give_up=told.give_up)
    try:
        held.acquire(tell=lambda text: print(f"cinoweta: {told.group}: {text}", file=sys.stderr, flush=True))
        code = run_held(held, told)
    finally:
        held.resign()
    if code is None:
        print(f"cinoweta: {told.group}: term {held.term} is over: {held.why}", file=sys.stderr)
    return LOST if code is None else code


def run_held(held: Lock, told: argparse.Namespace) -> int | None:
    """Runs the command while the lock is held: its exit status, or None where the lock was lost."""
    try:
        return held.run(told.run, told.grace)
    except OSError as fault:
        # The ring's faults are none of these.
        print(f"cinoweta: {told.run[0]}: {fault.strerror}", file=sys.stderr)
        return NOT_STARTED


def holder(told: argparse.Namespace) -> int:
    with ring_of(told) as ring:
        known = holder_of(ring, told.group, told.patience, across_hosts=told.across_hosts)
    if known is None:
        show(told, "none", group=told.group, term=None, leader=None, pid=None, text=None)
        return NONE
    more = f"process {known.pid} {known.text}" if known.pid is not None else f"text {known.text}" if known.text else ""
    text = f"term {known.term} leader {known.leader.node} {known.leader.bid} {more}".rstrip()
    show(told, text, group=told.group, term=known.term, leader=known.leader._asdict(), pid=known.pid, text=known.text)
    return 0


def waiters(told: argparse.Namespace) -> int:
    with ring_of(told) as ring:
        known = waiters_of(ring, told.group, told.patience)
    for place, waiter in enumerate(known, 1):
        text = f"{place} process {waiter.pid} {waiter.text}".rstrip()
        show(told, text, group=told.group, place=place, pid=waiter.pid, text=waiter.text)
    if not known and not told.json:
        show(told, "none")
    return 0 if known else NONE


def move(told: argparse.Namespace) -> int:
    host, port = status_of(told, told.old)
    with ring_of(told) as ring:
        if ring.status is None:
            print("cinoweta: whether the new ring has room is not known: tell its --status", file=sys.stderr)
        rename = dict(pair.split("=", 1) for pair in told.rename)
        return tell_lifted(told, "moved", moving.move(port, ring, host=host, rename=rename, skip=told.skip))


def raise_terms(told: argparse.Namespace) -> int:
    if (told.by is None) == (told.above is None) or told.above is not None and told.groups:
        raise ValueError("raise takes --by N and any groups, or --above FILE and none")
    if told.by is not None and told.by < 1:
        raise ValueError("terms are raised by 1 or more")
    with ring_of(told) as ring:
        if told.by is not None:
            return tell_lifted(told, "raised", moving.raise_by(ring, told.by, told.groups))
        lines = sys.stdin if told.above == "-" else pathlib.Path(told.above).read_text("utf-8").splitlines()
        floors: dict[str, int] = {}
        for group, term in map(floor_of, lines):
            floors[group] = max(term, floors.get(group, 0))
        return tell_lifted(told, "raised", moving.raise_above(ring, floors))


def floor_of(line: str) -> tuple[str, int]:
    """The group and the term of a line of `cinoweta leaders`."""
    words = line.split()
    if line.startswith("{"):
        row = json.loads(line)
        words = [str(row.get("group")), "term", str(row.get("term"))]
    if len(words) < 3 or words[1] != "term" or not words[2].isdecimal():
        raise ValueError(f"{line.strip()!r} is no line of `cinoweta leaders`")
    return words[0], int(words[2])


def tell_lifted(told: argparse.Namespace, what: str, lifted: moving.Lifted) -> int:
    """Tells each group's leader, how many there are, and at the end why each other group has none."""
    count, faults = 0, list[tuple[str, CinowetaError]]()
    try:
        for group, known in lifted:
            if isinstance(known, CinowetaError):
                faults.append((group, known))
                continue
            count += 1
            text = f"{group} term {known.term} leader {known.leader.node} {known.leader.bid}"
            show(told, text, group=group, term=known.term, leader=known.leader._asdict())
        show(told, f"{what} {count}", **{what: count})
    finally:
        for group, fault in faults:
            tell_fault(told, fault, f"{group}: ")
    return NONE if faults else 0


def backup(told: argparse.Namespace) -> int:
    lines, number = copying.backup(told.folder, told.to, told.ringd)
    text = "\n".join([*lines, f"copied {copying.nodes(pathlib.Path(told.to))} nodes, try {number}"])
    show(told, text, told=lines, tries=number)
    return 0


def show_size(told: argparse.Namespace) -> int:
    size = sizing.size(told.groups, told.elections_a_minute, told.name, told.nodes)
    values = dict.fromkeys(sizing.Size._fields) if size is None else size._asdict()
    text = "none" if size is None else " ".join(f"{name} {value}" for name, value in values.items())
    show(told, text, groups=told.groups, elections=told.elections_a_minute, **values)
    return NONE if size is None else 0


COMMANDS: dict[str, Callable[[argparse.Namespace], int]] = {
    "stand": stand, "who": who, "latest": latest, "retire": retire, "campaign": campaign, "watch": watch,
    "status": show_status, "leaders": show_leaders, "lock": lock, "holder": holder, "move": move,
    "backup": backup, "waiters": waiters, "raise": raise_terms, "sizing": show_size,
}
