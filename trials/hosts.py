#!/usr/bin/env python3
"""Workers on four hosts take turns at a lock, while holders are killed, paused and cut off, and ringd is started anew.

hosts.py [--ringd PATH] [--seconds S]

As root: the hosts are network namespaces, each joined to two networks by a switch of its own. ringd of PATH, or bin/ringd,
serves on the first host at one network, and the storage of examples/fencing at the other one. On each host a worker, a
process, takes the lock `jobs` across hosts for 0.2 seconds at a time, again and again, and writes a line to the storage
every 20 milliseconds meanwhile, with its term. One of them is a program in Go, where `go` is there. It heeds nothing but whether its lock is lost: that a write was turned away
does not stop it. One of them has `give_up`, of 3 seconds. First they are left alone for S seconds, 40 by default. Then one
of them keeps the lock, and it happens: a holder is killed; paused, and woken behind the next one's first writes; cut off
from ringd, but not from the storage, and joined again; and ringd is killed and started, while its holder goes on. Each so
once for each worker, but that on the host of ringd is cut off from nothing.

Printed is what came of each, with how long it took until the next worker led, and at the end how many writes were taken,
turned away and taken though stale: in the storage's file a lower term stands behind a greater one nowhere. The last line is
`stale writes accepted 0, faults 0`. Status 0 where it is that, 1 else, and 2 where it can't be tried.
"""
import argparse
import itertools
import os
import pathlib
import queue
import shutil
import signal
import statistics
import subprocess
import sys
import tempfile
import threading
import time
from collections.abc import Callable, Iterable
from typing import NamedTuple

HERE = pathlib.Path(__file__).resolve().parent
FENCING = HERE.parent / "examples" / "fencing"
sys.path[:0] = [str(FENCING), str(HERE.parent / "clients" / "python")]
from cinoweta import Lock, Ring
from storage import Refused, StorageClient

NAMES = ("red", "green", "blue", "grey")
# Who gives up, and after so many seconds; and who is a program in Go, where that is there.
GIVES_UP, SECONDS, IN_GO = "grey", 3.0, "blue"
# Unix time is this much more than that of the clock that all processes of a system tell alike.
UNIX = time.time() - time.monotonic()
# How long a turn is, and how often a line is written meanwhile.
HELD, EVERY = 0.2, 0.02
# The first node's port and that of --status; so long a silent session is kept; and so long anything is waited for.
FIRST, STATUS, IDLE, AT_MOST = 7101, 7100, 2, 60.0
RING = f"10.77.1.1:{FIRST}-{FIRST + 2}"


class Fault(Exception):
    """It did not go as it should."""


class Told(NamedTuple):
    """What a worker told: what it did, in which term, when, and where that is a line that was written its number."""
    what: str
    name: str
    term: int
    when: float
    number: int


def work(name: str, port: int, folder: str) -> None:
    """Takes turns until it is killed, and prints what it does."""
    storage = StorageClient(port, "10.77.2.1")
    ring = Ring.parse(RING, status=STATUS)
    lock = Lock(ring, "jobs", text=name, give_up=SECONDS if name == GIVES_UP else None)

    def keeps() -> bool:
        return pathlib.Path(folder, "keeps").read_text("ascii") == name

    def tell(what: str, number: int = 0) -> None:
        print(what, name, lock.term, time.monotonic(), number, flush=True)

    while True:
        lock.acquire()
        begun, is_kept = time.monotonic(), keeps()
        tell("leads")
        while not lock.is_lost():
            is_kept = is_kept and keeps()
            if time.monotonic() - begun > HELD and not is_kept:
                tell("resigns")
                lock.resign()
                break
            time.sleep(EVERY)
            try:
                tell("wrote", storage.write(lock.term, f"job of {name}"))
            except Refused:
                tell("refused")
            except OSError:
                tell("unanswered")
        else:
            tell("lost")


class Hosts:
    """The network namespaces, and the one in which the switches are."""

    def __init__(self) -> None:
        self.prefix = f"cinoweta-{os.getpid()}"
        self.made: list[str] = []

    def name(self, host: int) -> str:
        return f"{self.prefix}-{host}"

    def run(self, *words: str) -> None:
        subprocess.run(words, check=True)

    def make(self, count: int) -> None:
        """Host 0 has the switches."""
        for host in range(count + 1):
            self.run("ip", "netns", "add", self.name(host))
            self.made.append(self.name(host))
            self.run("ip", "-n", self.name(host), "link", "set", "lo", "up")
        middle = self.name(0)
        for network in (1, 2):
            self.run("ip", "-n", middle, "link", "add", f"switch{network}", "type", "bridge")
            self.run("ip", "-n", middle, "link", "set", f"switch{network}", "up")
            for host in range(1, count + 1):
                plug, own = f"plug{network}-{host}", f"net{network}"
                self.run("ip", "link", "add", plug, "netns", middle, "type", "veth", "peer", "name", own, "netns", self.name(host))
                self.run("ip", "-n", middle, "link", "set", plug, "master", f"switch{network}", "up")
                self.run("ip", "-n", self.name(host), "addr", "add", f"10.77.{network}.{host}/24", "dev", own)
                self.run("ip", "-n", self.name(host), "link", "set", own, "up")

    def join(self, host: int, is_joined: bool) -> None:
        """Has the switch of the first network pass on what comes from and goes to a host, or drop it unseen."""
        state = "3" if is_joined else "0"
        self.run("ip", "netns", "exec", self.name(0), "bridge", "link", "set", "dev", f"plug1-{host}", "state", state)

    def start(self, host: int, *words: str) -> "subprocess.Popen[str]":
        return subprocess.Popen(["ip", "netns", "exec", self.name(host), *words], stdout=subprocess.PIPE, text=True)

    def end(self) -> None:
        for name in self.made:
            subprocess.run(["ip", "netns", "del", name], check=False)


class Trial:
    """The hosts, their processes, and what the workers told."""

    def __init__(self, ringd: str, folder: str) -> None:
        self.ringd, self.folder, self.hosts = ringd, folder, Hosts()
        self.server: "subprocess.Popen[str] | None" = None
        self.storage: "subprocess.Popen[str] | None" = None
        self.port = 0
        self.workers: dict[str, "subprocess.Popen[str]"] = {}
        # The words that start a worker which is no part of this program.
        self.others: dict[str, str] = {}
        self.lines: "queue.Queue[str]" = queue.Queue()
        # All that was told, in the order in which it came.
        self.told: list[Told] = []
        self.faults = 0

    def begin(self) -> None:
        self.keeps("")
        pathlib.Path(self.folder, "ring").mkdir()
        pathlib.Path(self.folder, "storage").mkdir()
        text = f'nodes = 3\ndir = "{self.folder}/ring"\nport = {FIRST}\n'
        pathlib.Path(self.folder, "ring.toml").write_text(text, encoding="ascii")
        self.hosts.make(len(NAMES))
        self.serve()
        self.storage = self.hosts.start(1, sys.executable, str(FENCING / "storage.py"), f"{self.folder}/storage", "10.77.2.1")
        self.port = int(self.storage.stdout.readline().split()[1])
        self.build()
        for name in NAMES:
            self.start(name)

    def build(self) -> None:
        """Builds the worker in Go."""
        if shutil.which("go") is None:
            say("go is not there: all workers are in Python")
            return
        self.others[IN_GO] = f"{self.folder}/hosts_worker"
        subprocess.run(["go", "build", "-o", self.others[IN_GO], "."], cwd=HERE / "hosts_worker", check=True)

    def serve(self) -> None:
        words = ["--settings", f"{self.folder}/ring.toml", "--always", "--listen", "10.77.1.1", "--status", str(STATUS),
                 "--idle", str(IDLE), "--doors", "8"]
        self.server = self.hosts.start(1, self.ringd, *words)
        if "serving\n" not in iter(self.server.stdout.readline, ""):
            raise Fault("ringd does not serve")

    def start(self, name: str) -> None:
        """Starts a worker on its host."""
        program = [self.others[name]] if name in self.others else [sys.executable, __file__, "--work"]
        self.workers[name] = worker = self.hosts.start(NAMES.index(name) + 1, *program, name, str(self.port), self.folder)
        threading.Thread(target=lambda: [self.lines.put(line) for line in worker.stdout], daemon=True).start()

    def keeps(self, name: str) -> None:
        """Has this worker keep the lock in its next turn, for as long as that is so; none for no name."""
        file = pathlib.Path(self.folder, "keeps.new")
        file.write_text(name, encoding="ascii")
        file.rename(file.with_name("keeps"))

    def take(self, seconds: float) -> None:
        """Takes what is told within so many seconds."""
        until = time.monotonic() + seconds
        while (left := until - time.monotonic()) > 0:
            try:
                self.hear(self.lines.get(timeout=left))
            except queue.Empty:
                return

    def hear(self, line: str) -> Told:
        what, name, term, when, number = line.split()
        self.told.append(Told(what, name, int(term), float(when) - (UNIX if name in self.others else 0.0), int(number)))
        return self.told[-1]

    def wait(self, what: str, is_it: Callable[[Told], bool]) -> Told:
        """The next that is told and is it."""
        until = time.monotonic() + AT_MOST
        while (left := until - time.monotonic()) > 0:
            try:
                told = self.hear(self.lines.get(timeout=left))
            except queue.Empty:
                break
            if is_it(told):
                return told
        raise Fault(f"{what} within {AT_MOST:.0f} seconds: not so")

    def kept_by(self, name: str) -> Told:
        """Has this worker lead, and keep the lock."""
        self.take(0.0)
        self.keeps(name)
        lead = self.wait(f"{name} leads", lambda told: told.what == "leads" and told.name == name)
        self.wait(f"{name} writes", lambda told: told.what == "wrote" and told.term == lead.term)
        self.take(0.5)
        return lead

    def next_of(self, lead: Told, begun: float) -> tuple[Told, float]:
        """Who leads next, and how long that took from this time on."""
        following = self.wait(f"who follows {lead.name}", lambda told: told.what == "leads" and told.term > lead.term)
        return following, following.when - begun

    def of(self, lead: Told, what: str, begun: float = 0.0) -> list[Told]:
        """What its leader told of this since then."""
        return [told for told in self.told if told.what == what and told.name == lead.name and told.term == lead.term and told.when >= begun]

    def calm(self, seconds: float) -> None:
        """All take turns, and nothing happens."""
        self.take(3.0)
        begun, first = time.monotonic(), len(self.told)
        self.take(seconds)
        turns = [told for told in self.told[first:] if told.what == "leads"]
        counts = {name: sum(turn.name == name for turn in turns) for name in NAMES}
        say(f"calm for {time.monotonic() - begun:.0f} s: turns {len(turns)}: " + ", ".join(f"{name} {count}" for name, count in counts.items()))
        ends = {told.term: told.when for told in self.told if told.what == "resigns"}
        # The term of a Stand that came too late has no turn.
        overs = [later.when - ends[turn.term] for turn, later in itertools.pairwise(turns) if turn.term in ends]
        say(f"from a resign to the next holder in ms: {quarters(overs)}")
        if not all(len(turns) / 5 <= count <= len(turns) / 3 for count in counts.values()):
            self.fault("a worker had less than a fifth of the turns, or more than a third")

    def kill(self, name: str) -> None:
        lead, worker = self.kept_by(name), self.workers[name]
        killed = time.monotonic()
        worker.kill()
        worker.wait()
        following, took = self.next_of(lead, killed)
        say(f"killed {name} in term {lead.term}: {following.name} leads after {took:.2f} s")
        self.start(name)

    def pause(self, name: str) -> None:
        lead, worker = self.kept_by(name), self.workers[name]
        paused = time.monotonic()
        worker.send_signal(signal.SIGSTOP)
        following, took = self.next_of(lead, paused)
        self.wait("a write", lambda told: told.what == "wrote" and told.term > lead.term)
        woken = time.monotonic()
        worker.send_signal(signal.SIGCONT)
        lost = self.wait(f"{name} knows", lambda told: told.what == "lost" and told.term == lead.term)
        late = len(self.of(lead, "refused", woken))
        say(f"paused {name} in term {lead.term}: {following.name} leads after {took:.2f} s; woken, {name} knew after "
            f"{lost.when - woken:.2f} s, and late writes of it that were turned away: {late}")

    def cut(self, name: str) -> None:
        lead, host = self.kept_by(name), NAMES.index(name) + 1
        cut = time.monotonic()
        self.hosts.join(host, False)
        following, took = self.next_of(lead, cut)
        self.take(3.0)
        healed = time.monotonic()
        self.hosts.join(host, True)
        known = self.of(lead, "lost")
        lost = known[0] if known else self.wait(f"{name} knows", lambda told: told.what == "lost" and told.term == lead.term)
        late = len(self.of(lead, "refused", cut))
        when = f"{lost.when - cut:.2f} s behind the cut" if lost.when < healed else f"{lost.when - healed:.2f} s behind its end"
        both = max(0.0, lost.when - following.when)
        say(f"cut off {name}{' (give_up 3)' if name == GIVES_UP else ''} in term {lead.term}: {following.name} leads after {took:.2f} s; "
            f"{name} knew {when}, both believed for {both:.2f} s, and late writes of it that were turned away: {late}")
        if name == GIVES_UP and both:
            self.fault(f"{name} gives up, and believed beside {following.name}")
        if name != GIVES_UP and not late:
            self.fault(f"{name} wrote nothing while it was cut off")
        back = self.wait(f"{name} is back", lambda told: told.what == "leads" and told.name == name)
        say(f"joined {name} again: it leads in term {back.term}, {back.when - healed:.2f} s later")

    def restart(self, name: str) -> None:
        lead = self.kept_by(name)
        killed = time.monotonic()
        self.server.kill()
        self.server.wait()
        self.take(1.0)
        self.serve()
        served = time.monotonic()
        # Who waits would lead by then, where its holder did not come back.
        self.take(5.0)
        if self.of(lead, "lost") or any(told.term > lead.term for told in self.told):
            self.fault(f"{name} lost the lock by a start of ringd")
        wrote = len(self.of(lead, "wrote", killed))
        self.keeps("")
        end = self.wait(f"{name} resigns", lambda told: told.what == "resigns" and told.term == lead.term)
        following, took = self.next_of(lead, end.when)
        say(f"ringd was away for {served - killed:.2f} s in term {lead.term}: {name} went on, and wrote {wrote} lines; {following.name} leads "
            f"{1_000 * took:.0f} ms behind its resign")

    def fault(self, text: str) -> None:
        self.faults += 1
        say(f"fault: {text}")

    def judge(self) -> int:
        """How many stale writes the storage took."""
        for worker in self.workers.values():
            worker.kill()
            worker.wait()
        self.take(1.0)
        rows = pathlib.Path(self.folder, "storage", "jobs").read_text("ascii").splitlines()
        terms = [int(row.split()[0]) for row in rows]
        stale = sum(term < greatest for term, greatest in zip(terms[1:], itertools.accumulate(terms, max)))
        wrote = [told for told in self.told if told.what == "wrote"]
        wrong = [told for told in wrote if rows[told.number - 1:told.number] != [f"{told.term} job of {told.name}"]]
        for told in wrong[:3]:
            self.fault(f"line {told.number} is not that of {told.name} in term {told.term}")
        refused = sum(told.what == "refused" for told in self.told)
        say(f"writes taken {len(rows)}, of which {len(wrote)} were acknowledged in time to be told; turned away {refused}")
        return stale

    def end(self) -> None:
        for process in [*self.workers.values(), self.server, self.storage]:
            if process is not None and process.poll() is None:
                process.kill()
                process.wait()
        self.hosts.end()


def quarters(times: Iterable[float]) -> str:
    """The least, the quarters and the most, in milliseconds."""
    told = sorted(1_000 * each for each in times)
    if len(told) < 2:
        return " ".join(f"{each:.1f}" for each in told)
    return " ".join(f"{each:.1f}" for each in (told[0], *statistics.quantiles(told, n=4, method="inclusive"), told[-1]))


def say(text: str) -> None:
    print(text, flush=True)


def play(trial: Trial, seconds: float) -> int:
    trial.begin()
    trial.calm(seconds)
    for what, names in ((trial.kill, NAMES), (trial.pause, NAMES), (trial.cut, NAMES[1:]), (trial.restart, NAMES)):
        for name in names:
            what(name)
            trial.keeps("")
            trial.take(2.0)
    return trial.judge()


def main(words: list[str]) -> int:
    parser = argparse.ArgumentParser()
    parser.add_argument("--ringd", metavar="PATH", default=str(HERE.parent / "bin" / "ringd"))
    parser.add_argument("--seconds", type=float, default=40.0, metavar="S")
    told = parser.parse_args(words)
    wanting = [word for word in ("ip", "bridge") if shutil.which(word) is None]
    if os.geteuid() != 0 or wanting or not os.access(told.ringd, os.X_OK):
        print(f"hosts.py: it is run as root, with ip and bridge of iproute2, and {told.ringd}", file=sys.stderr)
        return 2
    with tempfile.TemporaryDirectory(prefix="cinoweta-") as folder:
        trial, stale = Trial(os.path.abspath(told.ringd), folder), 0
        try:
            stale = play(trial, told.seconds)
        except (Fault, OSError, ValueError, IndexError, subprocess.CalledProcessError) as fault:
            trial.fault(str(fault))
        finally:
            trial.end()
    say(f"stale writes accepted {stale}, faults {trial.faults}")
    return 1 if stale or trial.faults else 0


if __name__ == "__main__":
    if sys.argv[1:2] == ["--work"]:
        work(sys.argv[2], int(sys.argv[3]), sys.argv[4])
    else:
        sys.exit(main(sys.argv[1:]))
