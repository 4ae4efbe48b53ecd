"""Sessions of a ring of `ringd`, one behind the other, each once the ring has come to rest, against talks.py."""
import os
import random
import shutil

import rows
import scripts
from programs import Kind, Programs, Server
from talks import Ring


class Sessions(Kind):
    """A case is a list of sessions: a node, the bytes that are sent, and where they are cut."""

    name = "sessions"

    def case(self, rng: random.Random) -> list[tuple[int, bytes, list[int]]]:
        kind = rng.random()
        if kind < 0.02:
            # More Stands than a node takes.
            text = b"".join(b"stand %s %d 1\n" % (rng.choice(scripts.GROUPS), term) for term in range(1, 1_040))
            return [(1, text, []), *(session(rng) for _ in range(4))]
        return [session(rng) for _ in range(rng.randint(1, 20))]

    def differs(self, case: list[tuple[int, bytes, list[int]]]) -> str | None:
        folder = self.programs.path("ring")
        os.mkdir(folder)
        try:
            server = Server(self.programs, folder, 3, 1_048_576, ["--always"])
            try:
                why = str(server.ended) if server.ended else self.talk(server, case)
            except (OSError, UnicodeDecodeError) as error:
                why = f"{error!r}"
            return server.kill() or why
        finally:
            shutil.rmtree(folder)

    def talk(self, server: Server, case: list[tuple[int, bytes, list[int]]]) -> str | None:
        ring = Ring(3)
        for node, text, cuts in case:
            ends = [0, *cuts, len(text)]
            parts = [text[low:high] for low, high in zip(ends, ends[1:])]
            answer = server.exchange(server.port + node - 1, parts, 0.001 if cuts else 0.0)
            why = ring.fault(ring.nodes[node - 1], text, answer)
            if why:
                return why
            ring.rest()
            told = [(each["messages"]["sent"], each["messages"]["taken"], each["stands"]["taken"]) for each in server.rest()]
            if told != [(len(each.sent), each.taken, len(each.stood)) for each in ring.nodes]:
                return f"the nodes sent and took messages and Stands as {told}"
        return None


def session(rng: random.Random) -> tuple[int, bytes, list[int]]:
    kind = rng.random()
    if kind < 0.02:
        text = rng.choice([b"latest a\n", b"\n", b"no\r\n"]) * rng.randint(9_998, 10_003) + rng.choice([b"", b"bye\n", b"who"])
    else:
        told = [line(rng) for _ in range(rng.choice([1, 2, 5, 20, 60]))]
        if kind > 0.9:
            told += rng.choice(rows.sessions())
        # While elections are on their way nobody knows which of them a floor ends.
        text = b"".join(sorted(told, key=lambda each: each.split()[:1] != [b"retire"]))
    if rng.random() < 0.3:
        text += rng.choice([b"bye\n", b"bye\r\n", b"bye", b"bye\nlatest a\n", b"x" * 201 + b"\n", b"x" * 202, b" " * 200 + b"\r\n"])
    cuts = sorted(rng.randint(0, len(text)) for _ in range(rng.choice([0, 0, 1, 3, 10])))
    return rng.randint(1, 3), text, cuts


def line(rng: random.Random) -> bytes:
    """A line of a session, from one of a script without its node."""
    words = scripts.line(rng, 3).split(b" ")
    if words[0] in (b"stand", b"who", b"latest", b"retire") and rng.random() < 0.97:
        del words[1:2]
    elif rng.random() < 0.6:
        words = rng.choice([b"stand %s %d %d", b"stand %s %d %d #"]).split(b" ")[:4]
        words = [b"stand", rng.choice(scripts.GROUPS), b"%d" % rng.randint(1, 9), b"%d" % rng.randrange(9)]
    text = b" ".join(words)
    if rng.random() < 0.03:
        text = text.ljust(rng.randint(198, 203), rng.choice([b" ", b"0"]))
    return text + rng.choice([b"\n"] * 9 + [b"\r\n", b"\r\r\n"])
