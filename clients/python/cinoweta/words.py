"""The words of the command `cinoweta`."""
import argparse
import os

from . import __version__
from .election import KEEP

EPILOG = """exit status: 0 done; 1 no leader is known, another one leads, nobody holds the lock, a node is not well, or no
capacity is enough; 2 wrong words; 3 no answer; 4 no leader in so many terms; 5 the lock was lost; 6 it was not had in
time; 7 the system failed, as where nothing more can be printed; 8 who waits can't be listed; 10 + N refused as `no N`,
as 16 for `no 6 limit` and 17 for `no 7 full`; of lock 126 where COMMAND can't be started, 127 where there is none, else
that of COMMAND. Fencing at what COMMAND writes to makes a lock safe: it turns away each write with a lower term than
one that it has seen, which COMMAND finds in CINOWETA_TERM."""


def arguments() -> argparse.ArgumentParser:
    parser = argparse.ArgumentParser(prog="cinoweta", description="Asks a ring of ringd.", epilog=EPILOG)
    parser.add_argument("--version", action="version", version=f"cinoweta {__version__}")
    add_common(parser, ring=os.environ.get("CINOWETA_RING"), json=False, timeout=10.0)
    commands = parser.add_subparsers(dest="command", required=True, metavar="COMMAND")

    def command(name: str, told: str, *places: str, is_of_a_node: bool = False) -> argparse.ArgumentParser:
        added = commands.add_parser(name, help=told, description=told)
        for place in places:
            added.add_argument(place, metavar=place.upper(), type=str if place == "group" else int)
        # These may stand before the command or behind it.
        add_common(added, ring=argparse.SUPPRESS, json=argparse.SUPPRESS, timeout=argparse.SUPPRESS)
        if is_of_a_node:
            added.add_argument("--node", type=int, metavar="I", default=1 if name == "stand" else None)
        return added

    command("stand", "a node, 1 where none is told, stands with a bid", "group", "term", "bid", is_of_a_node=True)
    command("who", "who leads in a term", "group", "term", is_of_a_node=True)
    command("latest", "the greatest term that has a leader", "group", is_of_a_node=True)
    add_retire(command("retire", "a node, or each in turn, gives up the terms below a floor, and has room again", is_of_a_node=True))
    add_campaign(command("campaign", "stands until there is a leader above the one that is gone", "group",
                         is_of_a_node=True))
    watch = command("watch", "prints each new leader", "group")
    watch.add_argument("--after", type=int, default=0, metavar="TERM")
    watch.add_argument("--count", type=int, default=0, metavar="N", help="ends after so many; 0 for never")
    watch.add_argument("--wait", type=float, metavar="SECONDS",
                       help="how long it waits for a ring that is away; for ever where it is left out")
    add_port(command("status", "what ringd --status PORT tells"))
    leaders = command("leaders", "each group with its latest leader, as ringd --status PORT tells")
    add_port(leaders)
    leaders.add_argument("--after", default="", metavar="GROUP", help="those behind this one, in order of name")
    leaders.add_argument("--node", type=int, metavar="I", default=1, help="by what this node knows, 1 where none is told")
    add_lock(command("lock", "runs the COMMAND behind -- while it leads", "group"))
    holder = command("holder", "who holds a lock", "group")
    add_sight(holder)
    add_status(holder)
    add_move(command("move", "stands in the ring, which is a new one, one term above in each group of another one"))
    add_raise(command("raise", "stands in groups above the terms that they had, as behind a backup that has forgotten some"))
    waiters = command("waiters", "who waits for a lock on the ring's host, in order", "group")
    waiters.add_argument("--patience", type=float, default=5.0, metavar="SECONDS",
                         help="how long the holder's process is waited for")
    add_sizing(command("sizing", "the capacity and the keep that a ring of so many groups needs; no ring is asked"))
    add_backup(command("backup", "copies a ring's folder, served or not, to DIR, until ringd --check is well of the copy"))
    return parser


def add_sizing(parser: argparse.ArgumentParser) -> None:
    parser.add_argument("--groups", type=int, required=True, metavar="G")
    parser.add_argument("--elections-a-minute", type=int, required=True, metavar="M",
                        help="of all groups together; each term is kept for a minute")
    parser.add_argument("--name", type=int, default=8, metavar="BYTES", help="how long the groups' names are")
    parser.add_argument("--nodes", type=int, default=3, metavar="N")


def add_backup(parser: argparse.ArgumentParser) -> None:
    parser.add_argument("folder", metavar="FOLDER", help="that of the ring's settings")
    parser.add_argument("to", metavar="DIR", help="a folder that is not there")
    parser.add_argument("--ringd", metavar="PROGRAM", default="ringd", help="what looks at the copy, ringd where it is left out")


def add_retire(parser: argparse.ArgumentParser) -> None:
    parser.add_argument("group", nargs="?", metavar="GROUP")
    parser.add_argument("floor", type=int, nargs="?", metavar="FLOOR",
                        help="the greatest term that all nodes know a leader of, where it is left out")
    parser.add_argument("--all", action="store_true",
                        help="of each group that ringd --status tells a node knows, below its latest term there")
    parser.add_argument("--keep", type=int, default=0, metavar="N", help="so many terms below that are kept")
    add_status(parser)


def add_move(parser: argparse.ArgumentParser) -> None:
    parser.add_argument("--from", required=True, metavar="PORT", dest="old",
                      help="that of its ringd --status, of the new ring's host, or HOST:PORT")
    parser.add_argument("--rename", action="append", default=[], metavar="OLD=NEW", type=renamed,
                      help="a group's name in the new ring; may be told again")
    parser.add_argument("--skip", action="append", default=[], metavar="GROUP", help="stays behind; may be told again")
    parser.add_argument("--status", metavar="PORT", help="that of the new ring's ringd --status: it is asked for room first")


def add_raise(parser: argparse.ArgumentParser) -> None:
    parser.add_argument("groups", nargs="*", metavar="GROUP", help="all that ringd --status tells, where none is told")
    parser.add_argument("--by", type=int, metavar="N", help="so much above the latest term of each")
    parser.add_argument("--above", metavar="FILE", help="above the terms of this file, as `cinoweta leaders` prints; - for "
                                                        "standard input")
    add_status(parser)


def renamed(text: str) -> str:
    """OLD=NEW, of two names."""
    if not all(text.partition("=")):
        raise argparse.ArgumentTypeError(f"{text!r} is not OLD=NEW")
    return text


def add_port(parser: argparse.ArgumentParser) -> None:
    parser.add_argument("--port", default=os.environ.get("CINOWETA_STATUS"),
                        help="of the ring's host, or HOST:PORT; CINOWETA_STATUS where it is left out")


def add_common(parser: argparse.ArgumentParser, ring: str | None, json: bool | str, timeout: float | str) -> None:
    parser.add_argument("--ring", metavar="PORTS", default=ring,
                        help="the ports of all nodes, as 7101-7103, or of another host 10.0.0.5:7101-7103; "
                             "CINOWETA_RING where it is left out")
    parser.add_argument("--json", action="store_true", default=json, help="prints an object a line")
    parser.add_argument("--timeout", type=float, default=timeout, metavar="SECONDS",
                        help="how long an answer is waited for")


def add_campaign(parser: argparse.ArgumentParser) -> None:
    parser.add_argument("--gone", type=int, default=0, metavar="TERM", help="whose leader is gone; 0 for none")
    parser.add_argument("--rank", type=int, default=0, help="0 to 999: of who stands at once the greatest leads")
    parser.add_argument("--terms", type=int, default=3, metavar="N", help="for how many terms it stands at most")
    parser.add_argument("--wait", type=float, default=5.0, metavar="SECONDS", help="how long it waits in each")
    add_keep(parser)
    add_status(parser)


def add_lock(parser: argparse.ArgumentParser) -> None:
    parser.usage = "cinoweta lock [OPTION..] GROUP -- COMMAND"
    parser.add_argument("--rank", type=int, default=0, help="0 to 9")
    add_sight(parser)
    parser.add_argument("--wait", type=float, metavar="SECONDS",
                        help="how long it waits for who holds the lock, and for a ring that is away, full or failed; 0 "
                             "tries once, for two seconds at most, or until a holder that does not answer is gone; for "
                             "ever where it is left out")
    parser.add_argument("--give-up", type=float, metavar="SECONDS",
                        help="ends the COMMAND once no node answered for so long; never where it is left out")
    parser.add_argument("--grace", type=float, default=10.0, metavar="SECONDS", help="from TERM to KILL")
    parser.add_argument("--text", default="", help="what `holder` tells of this one, 200 bytes at most")
    add_keep(parser)
    add_status(parser)


def add_sight(parser: argparse.ArgumentParser) -> None:
    parser.add_argument("--patience", type=float, default=5.0, metavar="SECONDS",
                        help="a holder that does not answer for so long is gone, as one that is paused")
    parser.add_argument("--across-hosts", action="store_true", default=None,
                        help="holders are seen by ringd --status, from other hosts too, as with a ring of another host")


def add_keep(parser: argparse.ArgumentParser) -> None:
    parser.add_argument("--keep", type=int, default=KEEP, metavar="N",
                        help="who leads has each node retire the terms more than so many below its own")


def add_status(parser: argparse.ArgumentParser) -> None:
    parser.add_argument("--status", metavar="PORT", default=os.environ.get("CINOWETA_STATUS"),
                        help="that of ringd --status, which may stand behind the ring's host, or CINOWETA_STATUS: where "
                             "nobody comes to lead, it is asked why, and across hosts who holds a lock; one that is "
                             "held is shown there")
