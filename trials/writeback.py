#!/usr/bin/env python3
"""Has the disk refuse one page during one sync, and then the power go, and holds ringd to all that it told a client.

writeback.py [--ringd PATH] [--rounds N] [--case TEXT]

PATH is a built ringd, bin/ringd where none is named; N, 1 to 1,000, how often each case is tried, 10 by default; TEXT
has the cases played alone whose line has it. It takes root, a kernel with loop devices, tmpfs and ext4, and strace, mkfs.ext4, mount and fallocate.

After a write-back that failed Linux takes the page for clean and keeps its bytes. A file that is opened anew reads
them, and its sync answers 0 with nothing written: so a start that trusts what it reads tells what the disk never had. A
round is a ring of three nodes on ext4. Its image lies on a tmpfs that has just its size: a page of it that is punched
out, and whose room another file takes, can't be written until that file is gone. strace stops ringd behind each write
to node 2's file; behind the one that is waited for, the page that it wrote is taken away, so the sync behind it fails:

- call 4 of a batch, whose frame ends on another page than its gate stands on;
- call 2, 4 or 6 of a checkpoint that is due, or of one that is made at a start, which has to be refused then.

Each with a snapshot below a page and with one above. The disk then has the page as it was, and works. ringd is killed
and started again, asked again what is known, and asked for more Stands. Then it is killed, and the power goes: the
image as it is, without what only the memory has, is mounted in place of the disk. ringd is started there, and asked
again all that is known. What is checked of each answer stands in known.py.

In a fifth of N rounds each, those calls of a checkpoint fail at capacities of 4,096, 32,768 and 65,536, where node 2
retired terms before and where it did not, and the power goes within the start behind that: behind each of its calls on
node 2's file, at each of which ringd is stopped and the image kept. On each such image ringd is started, and asked again
all that was known before.

A line tells of each case `rounds N stands S leaders L moments M faults F`: the rounds, the Stands and leaders that were
told between the sync that failed and the end of the power, the moments within a start, and in how many rounds something
was missing or was not as it should be, of which the first is printed. Status 1 where there was a fault, or no such Stand
or leader, or no such moment; 2 for other arguments, or where something is missing that it takes.
"""
import argparse
import contextlib
import itertools
import os
import pathlib
import random
import re
import shutil
import signal
import subprocess
import sys
import tempfile
import threading
import time
from typing import Callable, Iterator, NamedTuple

HERE = os.path.dirname(os.path.abspath(__file__))
sys.path.insert(0, HERE)
import journal
from clients import Client, start
from disk import PAGE, Disk
from kill import PATIENCE, Ended, Ring, number
from known import BIDS, GROUPS, Question
from short import free_ports

# Area B begins with the last byte of a page, its gate: neither its snapshot nor its frames write that page again.
CAPACITIES = {"below": 4 * PAGE - 32, "above": 12 * PAGE - 32}
# Those at which the power goes within a start.
CUT = [4_096, 32_768, 65_536]
# How many questions a node is asked between the sync that failed and the end of the power. A checkpoint of them all
# would write what was lost again.
QUESTIONS = 8
# How many a node is asked at a time before, and how many bytes before the sync ringd is stopped behind each write.
LOAD, NEAR = 2, 1_200
WRITE = re.compile(r"pwrite64\(.*, (\d+), (\d+)(?:\) += \d+| <unfinished \.\.\.>)$", re.MULTILINE)


class Case(NamedTuple):
    """Which sync fails: that call of a `batch`, of a `checkpoint` that is due, or of one of a `start`; and the size of
    the snapshot beside a page. With a capacity of its own the power goes within the start behind that, whatever the
    snapshot's size; node 2 may have retired terms before."""
    kind: str
    call: int
    size: str
    cut: int = 0
    retires: bool = False

    def __str__(self) -> str:
        if not self.cut:
            return f"call {self.call} of a {self.kind}, snapshot {self.size} a page"
        return f"call {self.call} of a {self.kind}, capacity {self.cut}{', behind a Retire' if self.retires else ''}"

    def capacity(self) -> int:
        return self.cut or CAPACITIES[self.size]

    def rounds(self, rounds: int) -> int:
        return max(1, rounds // 5) if self.cut else rounds

    def has_size(self, snapshot: int) -> bool:
        if self.cut:
            return True
        return snapshot > PAGE if self.size == "above" else snapshot < PAGE - journal.HEAD

    def is_behind(self, kind: str, call: int, snapshot: int) -> bool:
        """Whether its sync is the one behind this call, where the last snapshot has so many bytes."""
        wanted = "batch" if self.kind == "batch" else "checkpoint"
        return (kind, call) == (wanted, self.call - 1) and self.has_size(snapshot)

    def left(self, state: journal.State, capacity: int) -> int:
        """About how many bytes of inputs are left until its sync."""
        is_new = self.kind == "checkpoint" and self.call > 2
        if not is_new and not self.has_size(len(state.snapshot)):
            return capacity
        if self.kind == "batch":
            return PAGE - state.gate % PAGE
        return capacity // 2 - state.taken if self.kind == "checkpoint" else 0


CASES = [Case(kind, call, size) for size in CAPACITIES
         for kind, calls in (("batch", [4]), ("checkpoint", [2, 4, 6]), ("start", [2, 4, 6])) for call in calls]
CASES += [Case(kind, call, "", cut, retires) for cut in CUT
          for kind, calls in (("batch", [4]), ("checkpoint", [2, 4, 6]), ("start", [2, 4, 6])) for call in calls
          for retires in (False, True)]


class Write(NamedTuple):
    length: int
    offset: int

    def last(self) -> int:
        """Where its last byte stands."""
        return self.offset + self.length - 1


class Stops(threading.Thread):
    """Has `then` called with what was written to `calls` each time that ringd stops, before it goes on."""

    def __init__(self, process: subprocess.Popen[bytes], calls: str, then: Callable[[str], None]) -> None:
        super().__init__(daemon=True)
        self.process, self.then = process, then
        self.calls = open(calls, encoding="ascii")

    def run(self) -> None:
        with contextlib.suppress(ChildProcessError, ProcessLookupError), self.calls:
            while self.stops():
                self.then(self.calls.read())
                os.kill(self.process.pid, signal.SIGCONT)

    def stops(self) -> bool:
        """Waits until ringd stops. False where it ends."""
        pid = self.process.pid
        if os.waitid(os.P_PID, pid, os.WSTOPPED | os.WEXITED | os.WNOWAIT).si_code != os.CLD_STOPPED:
            return False
        os.waitid(os.P_PID, pid, os.WSTOPPED)
        return True


class Halts(Stops):
    """Looks at each write to node 2's file, behind which ringd stops. At the one before the sync of the case it has
    `refuse` called with the page that was written, before ringd goes on."""

    def __init__(self, process: subprocess.Popen[bytes], calls: str, capacity: int, case: Case, snapshot: int,
                 refuse: Callable[[int], None]) -> None:
        super().__init__(process, calls, self.look_at)
        self.case, self.refuse = case, refuse
        self.areas = journal.areas(capacity)
        # The size of the last snapshot that is known, and the write before.
        self.snapshot, self.last = snapshot, Write(0, 0)
        self.came = threading.Event()

    def look_at(self, calls: str) -> None:
        for length, offset in WRITE.findall(calls):
            self.look(Write(int(length), int(offset)))

    def look(self, write: Write) -> None:
        kind, call = self.which(write)
        if (kind, call) == ("checkpoint", 3):
            self.snapshot = write.length - journal.HEAD
        # The next write to a batch's page, where there is one, would bring it back.
        is_left = kind == "checkpoint" or self.last.last() // PAGE > write.offset // PAGE
        if is_left and not self.came.is_set() and self.case.is_behind(kind, call, self.snapshot):
            self.refuse(write.offset // PAGE)
            self.came.set()
        self.last = write

    def which(self, write: Write) -> tuple[str, int]:
        """The call of a batch or a checkpoint that this write is."""
        if write.offset in self.areas:
            return ("checkpoint", 5 if self.last.offset == write.offset + 1 and self.last.length > 1 else 1)
        if write.offset - 1 in self.areas:
            return ("checkpoint", 3 if write.length > 1 else 1)
        return ("batch", 1 if write.length > 1 else 3)


class Asker(Client):
    """A client whose new questions are Stands, each for a new term or that of the one before."""
    terms: Iterator[int]

    def pick(self) -> Question:
        term = next(self.terms) // 2
        return Question("stand", GROUPS[term % len(GROUPS)], term, self.rng.randrange(BIDS))


class Round:
    """A ring on a disk of its own, one sync of which fails."""

    def __init__(self, ringd: str, folder: str, case: Case, rng: random.Random) -> None:
        self.case, self.rng = case, rng
        self.ring = Ring(ringd, folder, 1, case.capacity(), rng, 3)
        self.ring.port = free_ports(3)
        self.known = self.ring.known
        self.disk = Disk(folder, os.path.join(folder, "ring"))
        self.file = os.path.join(folder, "ring", "node-2.crj")
        self.calls = os.path.join(folder, "calls")
        self.process: subprocess.Popen[bytes] | None = None
        self.clients: list[Asker] = []
        self.terms = itertools.count(2)
        self.blocks: list[int] = []
        self.stands = self.leaders = self.moments = 0

    def start(self) -> None:
        self.process = self.ring.start(self.rng)
        self.ring.await_line(self.process, b"serving\n")

    def tracer(self, calls: str = "pwrite64") -> list[str]:
        """strace, which stops ringd behind each of these calls on node 2's file, a write where none is named, and its
        words."""
        open(self.calls, "wb").close()
        return ["strace", "-f", "-s", "0", "-o", self.calls, "-P", self.file, "-e", f"trace={calls}",
                "-e", f"inject={calls}:signal=SIGSTOP"]

    def halts(self, snapshot: int) -> Halts:
        """Looks at the writes of ringd, which is traced."""
        halts = Halts(self.process, self.calls, self.ring.capacity, self.case, snapshot, self.refuse)
        halts.start()
        return halts

    def kill(self) -> None:
        if self.process is not None:
            self.process.kill()
            self.process.wait()
            self.process.stdout.close()
            self.known.process_ended()
            self.process = None

    def ask(self, is_again: bool, new: int | None = None) -> list[threading.Thread]:
        """Has a client of each node ask: what is known, where it is asked again, and so many new questions, or new ones
        without end."""
        self.clients = []
        for node in range(1, self.ring.nodes + 1):
            again = self.known.questions(node, self.rng) if is_again else []
            rng = random.Random(self.rng.random())
            client = Asker(self.known, node, self.ring.port + node - 1, again, rng, PATIENCE)
            client.terms = self.terms
            client.again += [client.pick() for _ in range(new or 0)]
            self.clients.append(client)
        return start(self.clients, new is not None)

    def look(self, new: int = 0, is_again: bool = True) -> None:
        """Asks again what is known, unless that is not wanted, and so many new questions."""
        for thread in self.ask(is_again, new):
            thread.join()

    def refuse(self, page: int) -> None:
        """The disk refuses this page of node 2's file from now on, and what is asked may break off."""
        self.disk.take_away(self.blocks[page])
        for client in self.clients:
            client.is_killed = True

    def load(self) -> journal.State:
        """Asks for Stands until the sync of the case is near; for one of a start, until the snapshot has its size."""
        until = time.monotonic() + 5 * PATIENCE
        while time.monotonic() < until:
            state = journal.read(pathlib.Path(self.file).read_bytes())
            left = self.case.left(state, self.ring.capacity)
            if left < NEAR:
                return state
            self.look(LOAD if left < 10 * NEAR else 10 * LOAD, False)
        raise Ended("the call does not come near")

    def fail(self, state: journal.State) -> None:
        """Asks for Stands until the sync of the case comes, which fails."""
        tracer = [*self.tracer(), "-p", str(self.process.pid)]
        with subprocess.Popen(tracer, stderr=subprocess.PIPE) as strace:
            # It is there.
            strace.stderr.readline()
            halts = self.halts(len(state.snapshot))
            threads = self.ask(False)
            try:
                if not halts.came.wait(PATIENCE):
                    raise Ended("the call did not come")
                self.await_failure()
            finally:
                for client in self.clients:
                    client.is_killed = True
                self.kill()
        for thread in threads:
            thread.join()

    def await_failure(self) -> None:
        """Waits until ringd says that node 2 failed. The disk works again then."""
        until, path = time.monotonic() + PATIENCE, os.path.join(self.ring.folder, "err")
        try:
            while b"ringd: node 2 failed\n" not in (said := pathlib.Path(path).read_bytes()):
                if time.monotonic() > until:
                    raise Ended(f"node 2 goes on behind a sync that failed, and says {said!r}")
                time.sleep(0.01)
        finally:
            self.disk.give_back()

    def fail_start(self, state: journal.State) -> None:
        """Starts ringd, whose checkpoint of node 2 fails, so that it is refused."""
        self.kill()
        self.ring.tracer = [*self.tracer(), "-D"]
        self.process = self.ring.start(self.rng)
        self.ring.tracer = []
        halts = self.halts(len(state.snapshot))
        try:
            self.ring.await_line(self.process, b"serving\n")
        except Ended as ended:
            if "status 1, standard error 'ringd: node 2: device 1\\n" not in str(ended):
                raise
        else:
            raise Ended("it serves behind a sync that failed" if halts.came.is_set() else "it makes no checkpoint")
        finally:
            if halts.came.is_set():
                self.disk.give_back()
            self.kill()

    def retire(self) -> None:
        """Node 2 retires terms of a group for which it names a leader."""
        until = time.monotonic() + PATIENCE
        while not self.known.retired:
            if time.monotonic() > until:
                raise Ended("nothing was retired")
            self.look(LOAD, False)
            again = [Question("latest", group) for group in GROUPS]
            again += [Question("retire", group, term) for (node, group), term in self.known.latest.items() if node == 2]
            client = Client(self.known, 2, self.ring.port + 1, again, self.rng, PATIENCE)
            for thread in start([client], True):
                thread.join()

    def cut(self) -> None:
        """Starts ringd, and has the power go behind each of its calls on node 2's file before it serves."""
        kept: list[str] = []

        def keep(_calls: str) -> None:
            kept.append(os.path.join(self.ring.folder, f"moment-{len(kept)}"))
            self.disk.keep(kept[-1])

        self.ring.tracer = [*self.tracer("pwrite64,fdatasync"), "-D"]
        self.process = self.ring.start(self.rng)
        self.ring.tracer = []
        stops = Stops(self.process, self.calls, keep)
        stops.start()
        self.ring.await_line(self.process, b"serving\n")
        self.kill()
        stops.join()
        self.moments = len(kept)
        before = self.known
        for moment, path in enumerate(kept, 1):
            # Behind another moment the ring goes on in another way.
            self.known = self.ring.known = before.branch()
            try:
                self.disk.power_goes(path)
                self.start()
                self.look()
                self.kill()
            except Ended as ended:
                self.known.fault(str(ended))
                self.kill()
            before.faults += [f"the power went at moment {moment} of {len(kept)}: {it}" for it in self.known.faults[:1]]
            os.remove(path)
        self.known = self.ring.known = before

    def play(self) -> None:
        self.start()
        pages = os.path.getsize(self.file) // PAGE + 1
        self.blocks = [self.disk.block(self.file, page) for page in range(pages)]
        state = self.load()
        if self.case.retires:
            self.retire()
        if self.case.kind == "start":
            self.fail_start(state)
        else:
            self.fail(state)
        if self.case.cut:
            self.cut()
        else:
            self.go_on()

    def go_on(self) -> None:
        """Starts ringd, asks it for more, and has the power go."""
        stands, leaders = len(self.known.acknowledged), len(self.known.leaders)
        self.start()
        self.look(QUESTIONS)
        time.sleep(0.1)
        self.look()
        self.kill()
        self.stands, self.leaders = len(self.known.acknowledged) - stands, len(self.known.leaders) - leaders
        self.disk.power_goes()
        self.start()
        self.look()

    def run(self) -> None:
        try:
            self.play()
        except Ended as ended:
            self.known.fault(str(ended))
        finally:
            self.kill()
            self.disk.close()


def try_case(ringd: str, case: Case, rounds: int, rng: random.Random) -> bool:
    """Whether so many rounds of it were without a fault, and tried what they are for."""
    stands = leaders = moments = faults = 0
    rounds = case.rounds(rounds)
    for _ in range(rounds):
        folder = tempfile.mkdtemp(prefix="ringd-writeback-")
        try:
            played = Round(ringd, folder, case, rng)
            played.run()
        finally:
            shutil.rmtree(folder)
        stands, leaders, moments = stands + played.stands, leaders + played.leaders, moments + played.moments
        if played.known.faults and not faults:
            print(f"fault: {played.known.faults[0]}", flush=True)
        faults += bool(played.known.faults)
    print(f"{case}: rounds {rounds} stands {stands} leaders {leaders} moments {moments} faults {faults}", flush=True)
    return not faults and (bool(moments) if case.cut else bool(stands) and bool(leaders))


def main() -> int:
    parser = argparse.ArgumentParser(description="Has a disk refuse a page, and holds ringd to what it told.")
    parser.add_argument("--ringd", default=os.path.join(os.path.dirname(HERE), "bin", "ringd"), metavar="PATH")
    parser.add_argument("--rounds", type=number(1, 1_000), default=10, metavar="N")
    parser.add_argument("--case", default="", metavar="TEXT", help="plays the cases alone whose line has this text")
    words = parser.parse_args()
    if not os.access(words.ringd, os.X_OK):
        parser.error(f"{words.ringd} is not there; make ringd builds bin/ringd")
    if os.geteuid() != 0:
        parser.error("it takes root to mount a disk")
    missing = [program for program in ("strace", "mkfs.ext4", "mount", "fallocate") if shutil.which(program) is None]
    if missing or not os.path.exists("/dev/loop-control"):
        parser.error(f"it takes {', '.join(missing) or 'loop devices'}, which this machine has not")
    signal.signal(signal.SIGTERM, lambda *_: sys.exit(1))
    rng = random.Random()
    try:
        results = [try_case(os.path.abspath(words.ringd), case, words.rounds, rng) for case in CASES if words.case in str(case)]
        return 0 if all(results) else 1
    except (OSError, subprocess.CalledProcessError) as error:
        print(f"writeback.py: {error}", file=sys.stderr)
        return 1


if __name__ == "__main__":
    sys.exit(main())
