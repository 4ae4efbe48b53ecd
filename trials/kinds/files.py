"""Node files that somebody changed, against journals.py: the text of the start that is refused, or what the ring then answers."""
import os
import random
import shutil
import threading
from typing import NamedTuple

import journals
from journals import Input, Refused, State
from programs import Kind, Programs, Server

NODES = 3
GROUPS = [b"a", b"red", b"abcdefghijklmnop"]
# What a node needs so that it is never full, in bytes and in inputs.
ROOM, FEW = 1_500, 2**50


class Base(NamedTuple):
    """The files of a ring that was killed, and the ones of an earlier time."""
    files: list[bytes]
    older: list[bytes]


class Edit(NamedTuple):
    """A change of the file of a node. The words are `put` of bytes, `cut`, `add`, `swap` of two bytes, `older`, `files`, `gone`."""
    word: str
    node: int
    at: int = 0
    text: bytes = b""


class Files(Kind):
    """A case is the number of a base, and then edits."""

    name = "files"

    def __init__(self, programs: Programs) -> None:
        super().__init__(programs)
        rng = random.Random("bases")
        self.bases = [self.base(rng, capacity) for capacity in (4_096, 4_096, 4_096, 8_192, 65_536)]

    def base(self, rng: random.Random, capacity: int) -> Base:
        ring = self.programs.path("ring")
        os.mkdir(ring)
        older = []
        for _ in range(2):
            server = Server(self.programs, ring, NODES, capacity, ["--always"])
            if server.ended:
                raise SystemExit(f"the ring does not serve: {server.ended}")
            first = 40 * len(older)
            texts = [b"".join(b"stand %s %d %d\n" % (rng.choice(GROUPS), first + rng.randint(1, 30), rng.randrange(9))
                              for _ in range(rng.randint(1, 40))) for _ in range(NODES)]
            if older:
                # Of what was elected before it was killed.
                texts = [b"retire %s %d\n" % (rng.choice(GROUPS), rng.randint(1, 30)) * rng.randint(0, 2) + text for text in texts]
            clients = [threading.Thread(target=server.exchange, args=(server.port + node, [text])) for node, text in enumerate(texts)]
            for client in clients:
                client.start()
            for client in clients:
                client.join()
            server.kill()
            older, files = (older and files), [contents(path(ring, node)) for node in range(1, NODES + 1)]
        shutil.rmtree(ring)
        return Base(files, older or files)

    def case(self, rng: random.Random) -> list:
        number = rng.randrange(len(self.bases))
        return [number, *(edit(rng, self.bases[number]) for _ in range(rng.choice([0, 1, 1, 1, 1, 2, 2, 3, 6])))]

    def differs(self, case: list) -> str | None:
        number, *edits = case if case and isinstance(case[0], int) else [0, *case]
        base = self.bases[number]
        files: list[bytes | None] = list(base.files)
        for each in edits:
            change(files, base, each)
        ring = self.programs.path("ring")
        os.mkdir(ring)
        try:
            for node, file in enumerate(files, 1):
                if file is not None:
                    with open(path(ring, node), "wb") as out:
                        out.write(file)
            with open(os.path.join(ring, "ring.made"), "wb"):
                pass
            return self.start(ring, files)
        finally:
            shutil.rmtree(ring)

    def start(self, ring: str, files: list[bytes | None]) -> str | None:
        states, epochs, refusal = [], [], None
        if None in files:
            refusal = f"node {files.index(None) + 1}: unformatted"
        else:
            try:
                for node, file in enumerate(files, 1):
                    state, epoch = journals.read(file, node, NODES)
                    states.append(state)
                    epochs.append(epoch)
                refusal = apart(states)
            except Refused as why:
                refusal = f"node {len(states) + 1}: {why}"
        before = listing(ring)
        server = Server(self.programs, ring, NODES, 4_096, ["--always"])
        if refusal is None and server.ended is None:
            try:
                why = self.answers(server, states, epochs)
            except OSError as error:
                why = f"{error!r}"
            return server.kill() or why
        server.kill()
        if refusal is None or server.ended.status != 1:
            return f"{server.ended}, where it is {refusal}"
        told = server.ended.err.decode("ascii", "replace").split("\n")
        if server.ended.fault or told[0] != f"ringd: {refusal}" or len(told) != 2 + refusal.startswith("node "):
            return f"{server.ended}, where it is {refusal}"
        return None if listing(ring) == before else "a start that was refused changed a file"

    def answers(self, server: Server, states: list[State], epochs: list[int]) -> str | None:
        """What is wrong with what the ring tells once it has come to rest."""
        if any(state.capacity - state.used < ROOM or state.inputs > FEW for state in states):
            server.status()
            return None
        rest(states)
        for state, epoch, node in zip(states, epochs, server.rest()):
            told = (node["messages"]["sent"], node["messages"]["taken"], node["stands"]["taken"], node["journal"]["capacity"])
            if told != (state.sent, state.taken, state.stands, state.capacity) or node["journal"]["epoch"] < epoch:
                return f"node {state.me} tells {node}, where it sent {state.sent}, took {state.taken}, and has {state.stands} Stands"
            keys = sorted(state.touched) + [(group, floor - 1) for group, floor in sorted(state.floors.items()) if floor > 1]
            text = b"".join(b"who %s %d\nlatest %s\n" % (*key, key[0]) for key in keys)
            right = b"".join(leader(state, key) + latest(state, key[0]) for key in keys)
            answer = server.exchange(server.port + state.me - 1, [text])
            if answer != right:
                return f"node {state.me} answers {answer!r}, and not {right!r}"
        return None


def apart(states: list[State]) -> str | None:
    """The first two nodes that are not of one time: by their links, and then by the leaders that they know."""
    for own, to in zip(states, states[1:] + states[:1]):
        is_other = any(own.was_sent.get(number, message) != message for number, message in to.was_taken.items())
        if not own.credit <= to.taken <= own.sent or is_other:
            return f"nodes {own.me} and {to.me} do not fit"
    for place, own in enumerate(states):
        for other in states[:place]:
            if any(other.leaders.get(key, leader) != leader for key, leader in own.leaders.items()):
                return f"nodes {other.me} and {own.me} do not fit"
    return None


def rest(states: list[State]) -> None:
    """All messages are taken."""
    while ready := next((own for own in states if states[own.me % len(states)].taken < own.sent), None):
        to = states[ready.me % len(states)]
        to.accept(Input("take", to.taken, None, ready.window[to.taken - ready.credit]))


def leader(state: State, key: tuple[bytes, int]) -> bytes:
    if state.is_retired(key):
        return b"no 23 retired %d\n" % state.floors[key[0]]
    if key not in state.leaders:
        return b"none\n"
    return b"leader %d %d\n" % state.leaders[key][::-1]


def latest(state: State, group: bytes) -> bytes:
    term = state.latest(group)
    return b"term %d %s" % (term, leader(state, (group, term))) if term else b"none\n"


def path(ring: str, node: int) -> str:
    return os.path.join(ring, f"node-{node}.crj")


def contents(name: str) -> bytes:
    with open(name, "rb") as file:
        return file.read()


def listing(ring: str) -> dict[str, bytes]:
    return {name: contents(os.path.join(ring, name)) for name in sorted(os.listdir(ring))}


def change(files: list[bytes | None], base: Base, edit: Edit) -> None:
    """Makes a change, of a file that is there."""
    place, at = edit.node - 1, edit.at
    file = files[place]
    if edit.word == "files":
        files[place], files[at] = files[at], file
    elif edit.word == "older":
        files[place] = base.older[place]
    elif edit.word == "gone" or file is None:
        files[place] = None
    elif edit.word == "put":
        files[place] = file[:at] + edit.text + file[at + len(edit.text):]
    elif edit.word == "cut":
        files[place] = file[:at]
    elif edit.word == "add":
        files[place] = file + edit.text * (at or 1)
    elif max(at, edit.text[0]) < len(file):
        low, high = sorted((at, max(0, at - edit.text[0])))
        files[place] = file[:low] + file[high:high + 1] + file[low + 1:high] + file[low:low + 1] + file[high + 1:]


def edit(rng: random.Random, base: Base) -> Edit:
    node = rng.randint(1, NODES)
    file = base.files[node - 1]
    capacity = int.from_bytes(file[10:14], "big")
    # Mostly where something stands, or right behind it.
    written = [at for at, byte in enumerate(file) if byte]
    at = rng.choice([rng.choice(written), rng.choice(written) + 1, rng.randrange(120), 31 + capacity + rng.randrange(20), rng.randrange(len(file))])
    kind = rng.random()
    if kind < 0.7:
        text = rng.choice([bytes([file[at] ^ 1 << rng.randrange(8)]) if at < len(file) else b"\1", rng.randbytes(1), b"\0", b"\1", b"\2",
                           rng.randrange(300).to_bytes(rng.choice([2, 4, 8]), "big"), b"\xff" * rng.randint(1, 8), rng.randbytes(4),
                           file[rng.choice(written):][:rng.choice([1, 4, 16, 60])]])
        return Edit("put", node, at, text)
    if kind < 0.8:
        return Edit("cut", node, rng.choice([at, rng.randrange(20), len(file) - 1]))
    if kind < 0.85:
        return Edit("add", node, rng.choice([1, 1, 7, 2**21]), rng.choice([b"\0", b"\1", b"\xff"]))
    if kind < 0.92:
        return Edit("swap", node, at, bytes([rng.choice([1, 2, 8, 20])]))
    if kind < 0.95:
        return Edit("files", node, rng.randrange(NODES))
    return Edit("older" if kind < 0.985 else "gone", node)
