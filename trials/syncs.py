#!/usr/bin/env python3
"""Looks at the system calls of ringd: whether all that an answer rests on was synced before it was sent.

syncs.py [--ringd PATH]

PATH is a built ringd, bin/ringd where none is named. It takes strace. ringd serves three nodes, of 16,384 bytes so that
they make checkpoints, and is asked for Stands and leaders by a client of each node, in three starts on one folder: the
first one, until each node made a checkpoint; a second one; and one in which each sync from a thread's 24th on is
refused. strace writes down what each of its threads reads, writes and syncs; of two calls the one that began behind the
other's end stands behind it. What was written is stable once a sync that began behind it has answered 0. Then

- each write to a journal begins once the one before it is stable: so a frame or a snapshot before its gate, the gate
  that was closed before the snapshot, and a gate before all that follows, and a file that is opened is synced first;
- a new file and its name are stable before it is written to, all that it holds before it gets its own name, and all
  names before `ring.made` and before the first answer; no node's name goes while `ring.made` may be there;
- of an answer, the Stand, the leader, the message or the floor that it tells of is in a batch or a checkpoint whose gate
  is stable when it is sent, and which this start wrote, for the file may read what the disk never had.

The last line is `answers A batches B checkpoints C, not as they should be: answers A batches B checkpoints C starts S`,
behind the first of each kind that is not. Status 1 where there is one, or there was no answer, batch or checkpoint, or
no refused sync; 2 for other arguments.
"""
import argparse
import os
import pathlib
import random
import re
import shutil
import subprocess
import sys
import tempfile
import threading
import time
from collections import Counter, defaultdict
from typing import Callable, Iterator, NamedTuple

HERE = os.path.dirname(os.path.abspath(__file__))
sys.path.insert(0, HERE)
import journal
from clients import Client, start
from kill import PATIENCE, Ended, Ring
from short import free_ports

NODES = 3
CAPACITY = 16_384
# How long the second start is asked, in seconds, and from which sync of a thread on the third one is refused each.
LOAD, FAILING = 1.0, 24
CALLS = "openat,rename,unlink,unlinkat,fsync,fdatasync,pwrite64,accept4,recvfrom,sendto"
LINE = re.compile(r"(\d+) +(?:<\.\.\. (\w+) resumed>|(\w+)\()(.*?)(?:( <unfinished \.\.\.>)|\) += (-?\d+|\?)(.*))?$")
STRING = re.compile(r'"((?:[^"\\]|\\.)*)"')
PLACE = re.compile(r"^\d+<(.*?)>(?:, |$)")
NODE = re.compile(r"node-(\d+)\.crj(?:\.new)?$")

KINDS = ["answers", "batches", "checkpoints", "starts"]

Key = tuple[str, int]


class Call(NamedTuple):
    """A system call at its begin, where its result is None, or at its end. `number` is the same at both."""
    number: int
    name: str
    text: str
    result: int | None
    behind: str

    def strings(self) -> list[bytes]:
        return [text.encode("latin-1").decode("unicode_escape").encode("latin-1") for text in STRING.findall(self.text)]

    def place(self) -> str:
        """The file or the connection of its descriptor. Empty where ringd is gone before strace looks it up."""
        found = PLACE.match(self.text)
        return found.group(1) if found is not None else ""


def calls(lines: list[str]) -> Iterator[Call]:
    """Begins and ends of calls, in their order."""
    open_calls: dict[str, tuple[int, str]] = {}
    for count, line in enumerate(lines):
        found = LINE.match(line.rstrip("\n"))
        if found is None:
            continue
        thread, resumed, name, text, unfinished, result, behind = found.groups()
        if resumed is None:
            open_calls[thread] = (count, text)
            yield Call(count, name, text, None, "")
        else:
            count, begun = open_calls[thread]
            name, text = resumed, begun + text
        # A call that the kill ended has no result.
        if result is not None and result != "?":
            yield Call(count, name, text, int(result), behind)


class Told:
    """What a node's stable batches and checkpoints tell."""

    def __init__(self, node: int) -> None:
        self.node = node
        self.seen: set[Key] = set()
        self.stood: dict[Key, int] = {}
        self.leaders: dict[Key, tuple[int, int]] = {}
        self.floors: dict[str, int] = {}

    def take_input(self, taken: journal.Input) -> None:
        if taken.kind == journal.RETIRE:
            self.floors[taken.group] = taken.term
            return
        key = (taken.group, taken.term)
        self.seen.add(key)
        if taken.kind == journal.STAND:
            self.stood[key] = taken.bid
        elif taken.kind == journal.ELECTED or taken.kind == journal.TOKEN and taken.node == self.node:
            self.leaders[key] = (taken.bid, taken.node)

    def take_key(self, known: journal.Known) -> None:
        key = (known.group, known.term)
        self.seen.add(key)
        if known.stood is not None:
            self.stood[key] = known.stood
        if known.leader is not None:
            self.leaders[key] = known.leader

    def bears(self, question: list[str], answer: list[str]) -> bool:
        """Whether it has what this answer rests on."""
        numbers = [int(word) for word in answer if word.isdigit()]
        group, term = question[1], int((question + ["0", "0"])[2])
        match answer[0], answer[1:2]:
            case "stood", _:
                return self.stood.get((group, term)) == int(question[3])
            case "no", ["3"]:
                return self.stood.get((group, term)) == numbers[1]
            case "no", ["4"]:
                return (group, term) in self.seen
            case "no", ["5"]:
                return (group, numbers[1]) in self.leaders
            case "no", ["23"]:
                return self.floors.get(group, 0) >= numbers[1]
            case "retired", _:
                return self.floors.get(group, 0) >= term
            case "leader", _:
                return self.leaders.get((group, term)) == (numbers[1], numbers[0])
            case "term", _:
                return self.leaders.get((group, numbers[0])) == (numbers[2], numbers[1])
        return True


class File:
    """A file or a folder: what was written there, or named, and is not stable, by the call that did it."""

    def __init__(self) -> None:
        self.unstable: dict[int, object] = {}
        self.ended: set[int] = set()
        self.syncs: dict[int, set[int]] = {}

    def add(self, call: Call, what: object) -> None:
        self.unstable.setdefault(call.number, what)
        if call.result is not None:
            self.ended.add(call.number)

    def sync(self, call: Call) -> list[object]:
        """What is stable at the end of this sync and was not before."""
        if call.result is None:
            self.syncs[call.number] = self.ended & self.unstable.keys()
            return []
        begun = self.syncs.pop(call.number)
        return [self.unstable.pop(number) for number in begun if number in self.unstable] if call.result == 0 else []


class Journal(File):
    """The file of a node. A gate that is opened stands for the batch or the area behind it."""

    def __init__(self, node: int) -> None:
        super().__init__()
        self.areas, self.told, self.last, self.is_named = journal.areas(CAPACITY), Told(node), (0, b""), False

    def write(self, call: Call, counts: Counter[str]) -> str:
        """A write is at its begin or its end. What kind of a call was not stable before it, if any."""
        text, offset = call.strings()[0], int(call.text.rpartition(", ")[2])
        kind = "checkpoints" if offset in self.areas or offset - 1 in self.areas else "batches"
        fault, what = "", (kind, b"")
        if call.result is None:
            if self.unstable and self.is_named:
                fault = next(iter(self.unstable.values()))[0]
            if text == b"\1" and self.last[0] == offset + 1:
                what = (kind, self.last[1])
                counts[kind] += self.is_named
            self.last = (offset, text)
        self.add(call, what)
        return fault

    def take(self, kind: str, text: bytes) -> None:
        """What was behind a gate is stable."""
        if kind == "batches" and text:
            for taken in journal.records(text[journal.FRAME - 1:-1]):
                self.told.take_input(taken)
        elif text:
            snapshot = text[journal.HEAD - 1:-1]
            for known in journal.keys(snapshot):
                self.told.take_key(known)
            self.told.floors.update(journal.floors(snapshot))


class Start:
    """What was seen of one start of ringd."""

    def __init__(self, folder: str, port: int) -> None:
        self.folder, self.port = folder, port
        self.names = File()
        self.mark = os.path.join(folder, "ring.made")
        # Whether this start made it, and it is not gone for good.
        self.is_marked = False
        self.journals: dict[str, Journal] = {}
        self.made: set[str] = set()
        self.asked: dict[str, list[str]] = defaultdict(list)
        self.part: dict[str, str] = defaultdict(str)
        # What was seen, and what was not as it should be, and of this the first text of each kind.
        self.counts: Counter[str] = Counter()
        self.faults: Counter[str] = Counter()
        self.texts: dict[str, str] = {}

    def fault(self, kind: str, text: str) -> None:
        self.faults[kind] += 1
        self.texts.setdefault(kind, text)

    def see(self, call: Call) -> None:
        if call.name == "openat":
            self.open(call)
        elif call.name == "rename":
            self.rename(call)
        elif call.name in ("unlink", "unlinkat"):
            self.remove(call)
        elif call.name == "accept4":
            # A descriptor's connection is a new session.
            self.asked[call.behind[1:-1]], self.part[call.behind[1:-1]] = [], ""
        elif call.name in ("recvfrom", "sendto") and call.place():
            self.talk(call)
        elif call.place() == self.folder:
            stable = self.names.sync(call)
            self.is_marked = self.is_marked and ("gone", self.mark) not in stable
        elif call.place() in self.journals:
            self.use(call, self.journals[call.place()])

    def open(self, call: Call) -> None:
        path = call.strings()[0].decode()
        if os.path.dirname(path) != self.folder:
            return
        found = NODE.search(path)
        is_new = "O_EXCL" in call.text or "O_CREAT" in call.text and found is None
        if "O_CREAT" in call.text and not is_new:
            # A look at why it could not be made.
            self.made.discard(path)
            return
        self.is_marked = self.is_marked or path == self.mark
        if is_new and path == self.mark and call.result is None and self.names.unstable:
            self.fault("starts", "ring.made is made, and a name before it is not stable")
        if is_new:
            self.names.add(call, path)
        if found is not None and call.result is not None:
            opened = self.journals[path] = Journal(int(found[1]))
            opened.is_named = not is_new
            opened.add(call, ("starts", b""))
            self.made |= {path} if is_new else set()

    def rename(self, call: Call) -> None:
        old, new = (text.decode() for text in call.strings())
        if call.result is None:
            if self.journals[old].unstable:
                self.fault("starts", f"{old} gets its name, and what it holds is not stable")
        elif call.result == 0:
            self.journals[new] = self.journals.pop(old)
            self.journals[new].is_named = True
        if call.result == -1:
            # The name is as it was.
            self.names.unstable.pop(call.number, None)
        else:
            self.names.add(call, new)

    def remove(self, call: Call) -> None:
        path = call.strings()[0].decode()
        if call.result is None and self.is_marked and path.endswith(".crj"):
            self.fault("starts", f"{path} is removed, and ring.made may be there")
        if call.result == 0:
            self.names.add(call, ("gone", path))

    def use(self, call: Call, used: Journal) -> None:
        if call.name == "pwrite64":
            path = call.place()
            if path in self.made and (path in self.names.unstable.values() or used.unstable):
                self.fault("starts", f"{path} is written to, and it or its name is not stable")
            self.made.discard(path)
            fault = used.write(call, self.counts)
            if fault:
                self.fault(fault, f"{path} is written to at {used.last[0]}, and what was written before is not stable")
        else:
            self.counts["refused"] += call.result == -1
            for kind, text in used.sync(call):
                used.take(kind, text)

    def talk(self, call: Call) -> None:
        if call.name == "recvfrom" and call.result is not None and call.result > 0:
            *lines, self.part[call.place()] = (self.part[call.place()] + call.strings()[0].decode()).split("\n")
            self.asked[call.place()] += lines
        elif call.name == "sendto" and call.result is None:
            for line in call.strings()[0].decode().splitlines():
                self.answer(call.place(), self.asked[call.place()].pop(0), line)

    def answer(self, place: str, question: str, answer: str) -> None:
        node = int(place.partition("->")[0].rpartition(":")[2]) - self.port + 1
        told = self.journals[os.path.join(self.folder, f"node-{node}.crj")].told
        self.counts["answers"] += question != "bye"
        if self.names.unstable:
            self.fault("starts", "an answer is sent, and a name is not stable")
        if question != "bye" and not told.bears(question.split(), answer.split()):
            self.fault("answers", f"{answer!r} of node {node} to {question!r}, and nothing stable has it")


class Trial:
    """A ring, and what was seen of its starts."""

    def __init__(self, ringd: str, folder: str) -> None:
        self.rng = random.Random()
        self.ring = Ring(ringd, folder, 1, CAPACITY, self.rng, NODES)
        self.ring.port = free_ports(NODES)
        self.log = os.path.join(folder, "calls")
        os.mkfifo(self.log)
        self.starts: list[Start] = []

    def start(self, is_failing: bool, is_done: Callable[[float], bool]) -> None:
        """Starts ringd, asks it until that is so, by the seconds for which it was asked, kills it, and looks at its
        calls."""
        tracer = ["strace", "-D", "-f", "-yy", "-x", "-s", "65536", "-o", self.log, "-e", f"trace={CALLS}"]
        if is_failing:
            tracer += ["-e", f"inject=fdatasync:error=EIO:when={FAILING}+"]
        self.ring.tracer = tracer
        lines: list[str] = []
        reader = threading.Thread(target=lambda: lines.extend(open(self.log, encoding="ascii")), daemon=True)
        reader.start()
        process = self.ring.start(self.rng)
        try:
            self.ring.await_line(process, b"serving\n")
            self.ask(process, is_failing, is_done)
        finally:
            process.kill()
            process.wait()
            process.stdout.close()
        self.ring.known.process_ended()
        reader.join()
        seen = Start(os.path.join(self.ring.folder, "ring"), self.ring.port)
        for call in calls(lines):
            seen.see(call)
        self.starts.append(seen)

    def ask(self, process: subprocess.Popen[bytes], is_failing: bool, is_done: Callable[[float], bool]) -> None:
        known, clients = self.ring.known, []
        for node in range(1, NODES + 1):
            again, rng = known.questions(node, self.rng), random.Random(self.rng.random())
            clients.append(Client(known, node, self.ring.port + node - 1, again, rng, PATIENCE))
            clients[-1].is_killed = is_failing
        threads, begun = start(clients, False), time.monotonic()
        while not is_done(seconds := time.monotonic() - begun) and seconds < PATIENCE:
            time.sleep(0.05)
        for client in clients:
            client.is_killed = True
        process.kill()
        for thread in threads:
            thread.join()

    def has_checkpoints(self, _seconds: float) -> bool:
        """Whether each node made one."""
        return all(self.ring.made(node) for node in range(1, NODES + 1))

    def have_failed(self, _seconds: float) -> bool:
        """Whether all nodes said so."""
        return pathlib.Path(self.ring.folder, "err").read_text("ascii").count("failed") == NODES

    def run(self) -> bool:
        """Whether all was as it should be, and all was seen."""
        self.start(False, self.has_checkpoints)
        self.start(False, lambda seconds: seconds > LOAD)
        self.start(True, self.have_failed)
        counts = sum((seen.counts for seen in self.starts), Counter())
        faults = sum((seen.faults for seen in self.starts), Counter())
        for seen in self.starts:
            for kind, text in seen.texts.items():
                print(f"{kind}, start {self.starts.index(seen) + 1}: {text}")
        told = [f"{kind} {counts[kind]}" for kind in KINDS[:3]]
        wrong = [f"{kind} {faults[kind]}" for kind in KINDS]
        print(f"{' '.join(told)}, not as they should be: {' '.join(wrong)}")
        return not faults and not self.ring.known.faults and all(counts[kind] for kind in (*KINDS[:3], "refused"))


def named(description: str) -> str:
    """The ringd that the words name. It ends with 2 where there is none, or no strace to see its calls by."""
    parser = argparse.ArgumentParser(description=description)
    parser.add_argument("--ringd", default=os.path.join(os.path.dirname(HERE), "bin", "ringd"), metavar="PATH")
    words = parser.parse_args()
    if not os.access(words.ringd, os.X_OK):
        parser.error(f"{words.ringd} is not there; make ringd builds bin/ringd")
    if shutil.which("strace") is None:
        parser.error("it takes strace, which this machine has not")
    return os.path.abspath(words.ringd)


def main() -> int:
    ringd = named("Looks whether ringd synced what it tells.")
    folder = tempfile.mkdtemp(prefix="ringd-syncs-")
    try:
        return 0 if Trial(ringd, folder).run() else 1
    except Ended as ended:
        print(f"fault: {ended}")
        return 1
    finally:
        shutil.rmtree(folder)


if __name__ == "__main__":
    sys.exit(main())
