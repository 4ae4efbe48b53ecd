#!/usr/bin/env python3
"""flips.py [--ringd PATH] [--seed S] [--elections N] [--most C] [--each]

Changes one byte of one node's file in a ring of three nodes by `ringd`, starts it on that with `--existing`, and asks each node for all
that it knew: each byte of the header, of the area in use up to its closed gate, and of the head of the other area, each once in one bit
and once in all eight. Two rings had elections with one to three candidates, in three groups, and Retires: one since it was made; one
also before a start that wrote checkpoints. Each ends with a Stand whose token nobody has taken.

A flip is refused by the start; or the ring serves, and has elected twice more, in a group of its own, before it is asked `who`, `latest`,
and a Stand and a Retire that change nothing: then all answers are those without the flip, or one is another.

  --ringd PATH     the server, `bin/ringd` by default.
  --seed S         what the choices begin with: the elections, though not the order in which messages were taken, and the bits.
  --elections N    so many in the one ring, 1 to 8, 4 by default; as many in the other one, and half as many behind its checkpoints.
  --most C         so many flips may change an answer.
  --each           a line for each flip that changed an answer, in place of one for each field.

It prints what the refused starts said, what the bytes are whose flips were served, and of each field the first flip that changed an
answer. The last line is `flips N refused R same S changed C`. Status 0 where each start was refused by a text of docs/OPERATING.md or
served; 1 where one was not, no flip was served, or more than C changed an answer; 2 where a word is wrong."""

import argparse
import os
import random
import re
import shutil
import signal
import socket
import sys
import tempfile
import time
from collections import Counter
from typing import NamedTuple

import journal
from refusing import NODES, SECONDS, Ring

GROUPS = ("a", "red", "jobs-1")
# That of the elections behind a flip, and how long they are waited for, in seconds.
FURTHER, PATIENCE = "further", 2.0
# Files that did not change for so long, in seconds, are those of a ring at rest.
REST = 0.1
REFUSED = re.compile(
    r"ringd: (node [1-3]: (unformatted|wrongnode|damaged \d+|unlawful \d+)\n"
    r"ringd: (\S+: invalid data|node [1-3]: layout \d+ is newer than this ringd)|nodes [1-3] and [1-3] do not fit)\n"
)

# A node and a line that it was sent.
Asked = tuple[int, str]


class Failed(Exception):
    """The trial itself came to nothing."""


class Client:
    """A session at a node."""

    def __init__(self, port: int) -> None:
        self.connection = socket.create_connection(("127.0.0.1", port), SECONDS)
        self.connection.setsockopt(socket.IPPROTO_TCP, socket.TCP_NODELAY, 1)
        self.answers = self.connection.makefile("r", encoding="ascii", errors="replace", newline="\n")

    def send(self, lines: list[str]) -> None:
        self.connection.sendall("".join(f"{line}\n" for line in lines).encode())

    def ask(self, lines: list[str]) -> list[str]:
        self.send(lines)
        return [self.answer() for _ in lines]

    def answer(self) -> str:
        line = self.answers.readline()
        if not line.endswith("\n"):
            raise ConnectionError("the session ended")
        return line[:-1]

    def close(self) -> None:
        self.answers.close()
        self.connection.close()


class Sessions:
    """One at each node of a ring that serves."""

    def __init__(self, ring: Ring) -> None:
        self.clients = [Client(ring.port + place) for place in range(NODES)]

    def __enter__(self) -> "Sessions":
        return self

    def __exit__(self, *_: object) -> None:
        for client in self.clients:
            client.close()

    def elect(self, group: str, term: int, bids: dict[int, int]) -> list[str]:
        """These nodes stand with these bids, at once. What each node tells of the leader, `none` where that took too long."""
        for node, bid in bids.items():
            self.clients[node - 1].send([f"stand {group} {term} {bid}"])
        for node in bids:
            self.clients[node - 1].answer()
        until = time.monotonic() + PATIENCE
        return [told_by(client, f"who {group} {term}", until) for client in self.clients]

    def ask(self, lines: list[str]) -> dict[Asked, str]:
        """What each node answers to each line."""
        return {(node, line): answer for node, client in enumerate(self.clients, 1) for line, answer in zip(lines, client.ask(lines))}


def told_by(client: Client, line: str, until: float) -> str:
    """The answer, asked for until it is another one than `none`."""
    while (answer := client.ask([line])[0]) == "none" and time.monotonic() < until:
        time.sleep(0.0005)
    return answer


class Base(NamedTuple):
    """A ring that was stopped: its name and folder, the keys of its elections, and its floors."""
    name: str
    folder: str
    keys: list[tuple[str, int]]
    floors: dict[str, int]

    def path(self, node: int) -> str:
        return os.path.join(self.folder, f"node-{node}.crj")

    def files(self) -> list[bytes]:
        return [content(self.path(node)) for node in range(1, NODES + 1)]

    def looks(self) -> list[str]:
        return [f"who {group} {term}" for group, term in self.keys] + [f"latest {group}" for group in sorted({group for group, _ in self.keys})]

    def requests(self) -> list[str]:
        """Those that are refused by what the nodes know."""
        return [f"stand {group} {term} 0" for group, term in self.keys] + [f"retire {group} {floor}" for group, floor in self.floors.items()]


def content(path: str) -> bytes:
    with open(path, "rb") as file:
        return file.read()


class Player:
    """Has a ring elect."""

    def __init__(self, ringd: str, folder: str, rng: random.Random) -> None:
        self.ringd, self.folder, self.rng = ringd, folder, rng

    def base(self, name: str, counts: list[int]) -> Base:
        """A ring with so many elections in each of some starts."""
        base = Base(name, os.path.join(self.folder, name.replace(" ", "-")), [], {})
        for place, count in enumerate(counts, 1):
            ring = Ring(self.ringd, self.folder, base.folder if base.keys else None)
            if not ring.start(dict(os.environ), ["--always"]):
                raise Failed(f"the ring does not serve: {ring.said()}")
            try:
                with Sessions(ring) as sessions:
                    self.play(sessions, base, count)
                    self.end(ring, sessions, base, place == len(counts))
            finally:
                ring.ends(0)
            shutil.rmtree(base.folder, ignore_errors=True)
            shutil.copytree(ring.dir, base.folder)
        if {journal.read(data).epoch for data in base.files()} != {len(counts)}:
            raise Failed("a node made a checkpoint that no start made")
        return base

    def play(self, sessions: Sessions, base: Base, count: int) -> None:
        for _ in range(count):
            group = GROUPS[len(base.keys) % len(GROUPS)]
            term = max((term for other, term in base.keys if other == group), default=0) + self.rng.randint(1, 2)
            bids = {node: self.rng.randrange(10**9) for node in self.rng.sample(range(1, NODES + 1), self.rng.randint(1, NODES))}
            if "none" in sessions.elect(group, term, bids):
                raise Failed("an election does not come to its end")
            base.keys.append((group, term))
            if len(base.keys) % 4 == 0:
                self.retire(sessions, base, group, term)

    def retire(self, sessions: Sessions, base: Base, group: str, floor: int) -> None:
        if set(sessions.ask([f"retire {group} {floor}"]).values()) != {"retired"}:
            raise Failed("a term is not retired")
        base.floors[group] = floor

    def end(self, ring: Ring, sessions: Sessions, base: Base, is_last: bool) -> None:
        """Kills the ring, and leaves of a last Stand no more than its node has then."""
        paths = [os.path.join(ring.dir, f"node-{node}.crj") for node in range(1, NODES + 1)]
        before = at_rest(paths)
        group, term, bid = GROUPS[0], max(term for _, term in base.keys) + 1, self.rng.randrange(10**9)
        node = self.rng.randint(1, NODES)
        if is_last:
            sessions.elect(group, term, {node: bid})
        ring.ends(0)
        if is_last:
            base.keys.append((group, term))
            for other, (path, gate) in enumerate(zip(paths, before), 1):
                data = content(path)
                end = gate + journal.FRAME + journal.number(data, gate + 3, 4) if other == node else gate
                put(path, end, bytes(journal.read(data).gate - end))
            if journal.read(content(paths[node - 1])).inputs[-1] != journal.Input(journal.STAND, 0, group, term, bid):
                raise Failed("the last Stand is not alone in its frame")


def at_rest(paths: list[str]) -> list[int]:
    """The closed gates of the files, once these do not change."""
    before, until = [], time.monotonic()
    while time.monotonic() < until + REST:
        files = [content(path) for path in paths]
        if files != before:
            before, until = files, time.monotonic()
        time.sleep(REST / 10)
    return [journal.read(data).gate for data in before]


def put(path: str, at: int, text: bytes) -> None:
    with open(path, "r+b") as file:
        file.seek(at)
        file.write(text)


class Flip(NamedTuple):
    """These bits of this byte of a node's file, which belongs to a field."""
    node: int
    at: int
    bits: int
    field: str


class Trial:
    def __init__(self, ringd: str, folder: str, seed: int, is_each: bool) -> None:
        self.ringd, self.folder, self.rng, self.is_each = ringd, folder, random.Random(seed), is_each
        # How many flips there were, by the name of the ring, the field and what came of it.
        self.ends: Counter[tuple[str, str, str]] = Counter()
        # What was said by starts that are refused, and by rings that serve.
        self.said: Counter[str] = Counter()
        self.faults = 0

    def sweep(self, base: Base) -> None:
        """Each flip."""
        right, again = (self.answers(Ring(self.ringd, self.folder, base.folder), base) for _ in range(2))
        if right is None or right != again or "none" in right.values():
            raise Failed("without a flip the ring does not serve, or answers in two ways")
        for node, data in enumerate(base.files(), 1):
            for at, field in sorted(journal.fields(data).items()):
                for bits in (1 << self.rng.randrange(8), 255):
                    self.flip(base, Flip(node, at, bits, field), data[at], right)
        print(self.row(base.name, name=base.name), flush=True)

    def flip(self, base: Base, flip: Flip, byte: int, right: dict[Asked, str]) -> None:
        ring = Ring(self.ringd, self.folder, base.folder)
        put(os.path.join(ring.dir, f"node-{flip.node}.crj"), flip.at, bytes([byte ^ flip.bits]))
        answers = self.answers(ring, base)
        end, said = "refused" if answers is None else "same" if answers == right else "changed", ring.said()
        self.ends[base.name, flip.field, end] += 1
        if said:
            self.said[f"{'refused' if answers is None else 'served'}, {kind_of(said)}"] += 1
        place = f"{base.name}, node {flip.node}, byte {flip.at}, {byte} to {byte ^ flip.bits}, {flip.field}"
        if end == "refused" and (not REFUSED.fullmatch(said) or ring.process.returncode != 1):
            self.faults += 1
            print(f"fault, {place}: it ended with {ring.process.returncode} and said {said!r}", flush=True)
        if end == "changed" and (self.is_each or self.count("changed", field=flip.field) == 1):
            print(f"changed, {place}: {difference(right, answers)}", flush=True)

    def answers(self, ring: Ring, base: Base) -> dict[Asked, str] | None:
        """All that each node answers. None where the start is refused."""
        if not ring.start(dict(os.environ), ["--existing", "--serve", "1"]):
            return None
        found: dict[Asked, str] = {}
        try:
            with Sessions(ring) as sessions:
                # Behind the second one each message of before was taken, and each that follows from it.
                for term in (1, 2):
                    for node, told in enumerate(sessions.elect(FURTHER, term, {term: 0}), 1):
                        found[node, f"who {FURTHER} {term}"] = told
                found |= sessions.ask(base.looks())
                found |= sessions.ask(base.requests())
        except OSError as error:
            found[0, "a session"] = str(error)
        finally:
            ring.ends(0)
        return found

    def count(self, end: str, name: str = "", field: str = "") -> int:
        """How many came to this end, of one ring or of all, and of one field or of all."""
        return sum(count for (ring, own, came), count in self.ends.items() if came == end and name in ("", ring) and field in ("", own))

    def row(self, what: str, name: str = "", field: str = "") -> str:
        refused, same, changed = (self.count(end, name, field) for end in ("refused", "same", "changed"))
        return f"{what}{': ' if what else ''}flips {refused + same + changed} refused {refused} same {same} changed {changed}"

    def end(self, most: int | None) -> int:
        for text, count in self.said.most_common():
            print(f"{count} {text}")
        served = {field for _, field, end in self.ends if end != "refused"}
        for field in sorted(served, key=lambda it: (-self.count("changed", field=it), it)):
            print(self.row(field, field=field))
        print(self.row(""))
        is_most = most is not None and self.count("changed") > most
        return 1 if self.faults or not self.count("same") or is_most else 0


def kind_of(said: str) -> str:
    """What was said, with no numbers."""
    return re.sub(r"\d+", "N", said.strip().replace("ringd: ", "").replace("\n", ", "))


def difference(right: dict[Asked, str], answers: dict[Asked, str]) -> str:
    """The first answer that is another one, and how many are."""
    wrong = [asked for asked in right if answers.get(asked) != right[asked]]
    node, line = wrong[0]
    return f"{len(wrong)} answers, node {node} to {line!r}: {answers.get(wrong[0])!r}, not {right[wrong[0]]!r}"


def main() -> int:
    parser = argparse.ArgumentParser(usage=__doc__.split("\n\n")[0])
    parser.add_argument("--ringd", default=os.path.join(os.path.dirname(os.path.dirname(os.path.abspath(__file__))), "bin", "ringd"))
    parser.add_argument("--seed", type=int, default=1, metavar="S")
    parser.add_argument("--elections", type=int, default=4, metavar="N")
    parser.add_argument("--most", type=int, metavar="C")
    parser.add_argument("--each", action="store_true")
    words = parser.parse_args()
    if not os.access(words.ringd, os.X_OK):
        parser.error(f"{words.ringd} is not there; make ringd builds bin/ringd")
    if not 1 <= words.elections <= 8:
        parser.error("--elections takes 1 to 8")
    folder = tempfile.mkdtemp(prefix="flips-")
    signal.signal(signal.SIGTERM, lambda *_: sys.exit(1))
    try:
        player = Player(os.path.abspath(words.ringd), folder, random.Random(words.seed))
        trial = Trial(os.path.abspath(words.ringd), folder, words.seed, words.each)
        trial.sweep(player.base("no checkpoint", [words.elections]))
        trial.sweep(player.base("checkpoints", [words.elections, (words.elections + 1) // 2]))
        return trial.end(words.most)
    except Failed as failed:
        print(f"flips.py: {failed}", file=sys.stderr)
        return 1
    finally:
        shutil.rmtree(folder, ignore_errors=True)


if __name__ == "__main__":
    sys.exit(main())
