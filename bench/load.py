#!/usr/bin/env python3
"""load.py [--ringd PATH] [--folder PATH] [--runs N] [--against PROGRAM] [--capacity C] [--scrape MS] [--turns PATH] [--years TERMS]: times `ringd` under
load, over sockets, on files.

It prints figures and asserts nothing of them. All of it stands in one run: the answers that clients get, elections, and the cost of
a bare append with a sync in the same folder, to which the ratios are given.

  --ringd PATH       the server, `bin/ringd` by default. More than one client at a node needs its word `--doors`; where its help
                     names none, those rows are left out.
  --folder PATH      where the files are made, the current folder by default. It should be on a real disk: in memory a sync costs
                     nothing. A folder of its own is made there, and is removed at the end.
  --runs N           how often each row is run, 1 to 100, 9 by default. Figures are medians of the runs.
  --against PROGRAM  a program that shows what is to be had at best on this machine. It is run as `PROGRAM FOLDER`, before the rows and
                     behind them, and prints on lines of their own
                       bare append of 64 bytes with a sync: X us
                     and for each count N of clients, once for each way in which it may be done,
                       sockets, N: X us an answer
                     Other lines, and what follows on these, are not looked at. Of each way the two times are averaged, and the least is
                     the best for N clients. Where N has such a line the ratio to it is printed.
  --capacity C       the capacity of each node, 1,048,576 by default, where no node makes a checkpoint in a run. With 131,072 bytes each
                     makes one at some 780 elections. The rows at three nodes, with 3,072, want 262,144: in less, nodes get full.
  --scrape MS        `/metrics` is read at the start of each row's run, and every so many milliseconds then, 1 to 60,000. A node has 30
                     doors at most then beside the one that it keeps, and so many clients in place of 31.
  --turns PATH       another server, as one of the tree before, with which each run of a row is done in turns. Printed are in place of all
                     else the answers a second by that one and by `--ringd`, and the ratio; of each row, and of all the mean ratio. Then
                     the same of elections, by their times.
  --years TERMS      in place of all rows one ring, of 65,536 bytes where --capacity says no other, elects so many terms, 11 to 1,000,000,
                     in each of three groups, side by side, and each client retires at all nodes the terms more than 10 below the one that
                     it had elected. Printed are the times of elections and of retiring, what the nodes hold then, and by how much the
                     memory of `ringd` grew for each input. A refusal ends it, as 6 and 7, with status 1.

A row is so many clients at node 1, or at each of three nodes. A client asks in a loop, and waits for each answer: `stand` in a group of
its own for a greater term each time, or that and `who` in turn. Each run has a new folder, since a node takes 1,024 Stands at most, and
all clients of a node together stand 1,024 times or a few less. Each Stand is an election of its own among the three nodes, so behind the
answers there are six messages for each; they share the disk and the processors, and go on when the last answer is there. Printed is a
table in Markdown, with

  answers, and Stands among them, a second by the clock, until the last client has its last answer;
  Stands an append: how many were answered in the time of a bare append, of 600 made just before and behind the run, least to most;
  the 50th and 99th percentile of the time of a Stand's answer, and of a who's, in microseconds;
  inputs a batch: the inputs that the three nodes hold in the end, by how often a journal was written twice, as for a batch; a
  checkpoint writes three times;
  processor: user plus system time of the server, less that of a run with the same sessions and no lines, for each answer;
  done: how long it took from the first line until nothing more was written; then all those elections are over.

Behind it stand the elections: `stand` at each of the three nodes, until `latest`, asked each 0.1 ms, is not `none` at all three, behind
rests of 5 ms and of 0.1 ms. Beside them stands, of the same moments, what an election's commits cost where nobody has to be woken: six of
one input, one behind the other, by one thread. The last line says how much of the processors others took meanwhile, system threads among
them: where that is more than a little the figures say little.

The clients are bench/load.c, compiled by `cc` (or clang, or gcc). Python would hide the server: against a server of 30 lines of C that
answers at once, 32 clients in Python's threads took 28 to 35 us an answer, and 29 to 49 us of processor; one loop over `epoll` in Python
took 16 to 19 us; the same clients in C took 8 to 12 us. Here 32 clients are to be answered every 20 to 30 us, on the same processors.

Status 0; 1 where a program did not do what is expected of it, which is told on standard error; 2 where a word is wrong or there is no
compiler. Linux alone: it reads /proc."""

import argparse
import itertools
import json
import os
import re
import resource
import select
import shutil
import socket
import statistics
import subprocess
import sys
import tempfile
import threading
import time
from dataclasses import dataclass, field

HERE = os.path.dirname(os.path.abspath(__file__))
sys.path.append(os.path.join(HERE, "..", "tests"))
from ports import free_ports

RING = 3
STANDS = 1024
CAPACITY = 1 << 20
# A node keeps one of 32 doors for short questions.
COUNTS = (1, 4, 16, 31)
MOST_SCRAPED = 30
# Of --years: how many groups there are, how many terms below the last one are kept, and the capacity.
GROUPS, KEEP, SMALL = 3, 10, 1 << 16
APPENDS = 300
ELECTIONS = 20
# The commits on the way of an election in a ring of three: a token goes round, and its leader is told round.
HOPS = 6
# The rests before an election, in microseconds: its threads sleep deep behind the first, and hardly behind the other.
RESTS = (5000, 100)
SECONDS = 60


class Failed(Exception):
    """A program did not do what is expected of it."""


def call(words: list[str], seconds: float = SECONDS) -> str:
    """What a program prints."""
    try:
        done = subprocess.run(words, capture_output=True, text=True, timeout=seconds, check=False)
    except (OSError, subprocess.TimeoutExpired) as error:
        raise Failed(f"{words[0]}: {error}") from error
    if done.returncode != 0:
        raise Failed(f"{' '.join(words)}: status {done.returncode}: {done.stderr.strip()}")
    return done.stdout


def compiled(folder: str) -> str:
    """The clients' program, made in this folder."""
    for name in ("cc", "clang", "gcc"):
        compiler = shutil.which(name)
        if compiler:
            program = os.path.join(folder, "load")
            call([compiler, "-O2", "-pthread", os.path.join(HERE, "load.c"), "-o", program])
            return program
    print("load.py: no C compiler, neither cc, clang nor gcc", file=sys.stderr)
    sys.exit(2)


def read(port: int, target: str) -> bytes:
    """What is told at this port by HTTP."""
    text = b""
    with socket.create_connection(("127.0.0.1", port), SECONDS) as client:
        client.sendall(b"GET %s HTTP/1.1\r\nHost: ring\r\n\r\n" % target.encode("ascii"))
        while piece := client.recv(1 << 16):
            text += piece
    return text


class Scraper:
    """Reads `/metrics` at a port again and again, until it is ended."""

    def __init__(self, port: int, pause: float) -> None:
        self.port, self.pause, self.count, self.is_answered = port, pause, 0, False
        self.ends = threading.Event()
        self.thread = threading.Thread(target=self.scrape, daemon=True)
        self.thread.start()

    def scrape(self) -> None:
        """Reads until it is ended, or is not answered."""
        try:
            while read(self.port, "/metrics").startswith(b"HTTP/1.1 200 "):
                self.count += 1
                if self.ends.wait(self.pause):
                    self.is_answered = True
                    break
        except OSError:
            pass

    def end(self) -> int:
        """How often it was answered, which it always was."""
        self.ends.set()
        self.thread.join()
        if not self.is_answered:
            raise Failed("ringd: no answer to a scrape")
        return self.count


@dataclass
class Rings:
    """What the rings of all runs have: their program, their capacity, and how many seconds lie between two scrapes."""

    ringd: str
    folder: str
    capacity: int
    pause: float | None


class Server:
    """A ring of three new nodes in a folder, which serves so many sessions at each and then ends, or goes on without end."""

    def __init__(self, rings: Rings, sessions: int | None, doors: int) -> None:
        ringd, folder = rings.ringd, rings.folder
        self.port = free_ports(RING + 1)
        self.path = tempfile.mkdtemp(prefix="ring-", dir=folder)
        settings = os.path.join(folder, "settings.toml")
        with open(settings, "w", encoding="utf-8") as file:
            file.write(f'nodes = {RING}\ndir = "{self.path}"\nport = {self.port}\ncapacity = {rings.capacity}\n')
        words = [ringd, "--settings", settings, *(("--serve", str(sessions)) if sessions else ("--always",))]
        if doors > 1:
            words += ["--doors", str(doors)]
        if rings.pause is not None:
            words += ["--status", str(self.port + RING)]
        self.process = subprocess.Popen(words, stdout=subprocess.PIPE)
        self.text = b""
        try:
            self.read_until(b"serving\n")
            self.written = self.writes()
        except (Failed, OSError):
            self.stop()
            raise

    def read_until(self, end: bytes) -> None:
        """Reads what it prints, to these bytes, or to its end where there are none."""
        until = time.monotonic() + SECONDS
        while not end or end not in self.text:
            left = until - time.monotonic()
            if left <= 0 or not select.select([self.process.stdout], [], [], left)[0]:
                raise Failed("ringd: no answer")
            piece = os.read(self.process.stdout.fileno(), 4096)
            if not piece:
                if end:
                    raise Failed(f"ringd: ended with {self.process.wait(SECONDS)}")
                return
            self.text += piece

    def writes(self) -> int:
        """How many writes it has made by now; what goes to a socket is sent, and does not count."""
        with open(f"/proc/{self.process.pid}/io", encoding="ascii") as file:
            return int(re.search(r"syscw: (\d+)", file.read()).group(1))

    def memory(self) -> int:
        """The bytes that it holds in memory."""
        with open(f"/proc/{self.process.pid}/status", encoding="ascii") as file:
            return 1024 * int(re.search(r"VmRSS:\s*(\d+) kB", file.read()).group(1))

    def rest(self) -> tuple[int, float]:
        """Waits until nothing was written for 30 ms. How many writes there were since the start, and when the last one was seen."""
        until = time.monotonic() + SECONDS
        count, seen = self.writes(), time.monotonic()
        while time.monotonic() - seen < 0.03:
            time.sleep(0.002)
            now = self.writes()
            if now != count:
                count, seen = now, time.monotonic()
            if seen > until:
                raise Failed("ringd: it goes on writing")
        return count - self.written, seen

    def end(self, sessions: list[int]) -> tuple[int, float]:
        """Has each node serve so many sessions more. How many inputs the nodes hold in the end, and the server's processor seconds."""
        for place, count in enumerate(sessions):
            for _ in range(count):
                with socket.create_connection(("127.0.0.1", self.port + place), SECONDS) as client:
                    client.sendall(b"bye\n")
                    if client.recv(16) != b"bye\n":
                        raise Failed("ringd: a session did not end")
        self.read_until(b"")
        _, status, used = os.wait4(self.process.pid, 0)
        self.process.returncode = os.waitstatus_to_exitcode(status)
        nodes = re.findall(rb"^node \d+ inputs (\d+) ", self.text, re.M)
        if status != 0 or len(nodes) != RING:
            raise Failed(f"ringd: ended with {self.process.returncode}")
        return sum(map(int, nodes)), used.ru_utime + used.ru_stime

    def stop(self) -> None:
        """Ends it, however it is, and removes its folder."""
        if self.process.returncode is None:
            self.process.kill()
            self.process.wait(SECONDS)
        self.process.stdout.close()
        shutil.rmtree(self.path, ignore_errors=True)


@dataclass
class Row:
    """So many clients at each of so many nodes, and what their runs gave."""

    nodes: int
    clients: int
    asks: bool
    idle: list[float] = field(default_factory=list)
    figures: dict[str, list[float]] = field(default_factory=dict)

    def add(self, name: str, value: float) -> None:
        self.figures.setdefault(name, []).append(value)

    def middle(self, name: str) -> float:
        return statistics.median(self.figures[name])

    @property
    def place(self) -> str:
        return "node 1" if self.nodes == 1 else f"each of {self.nodes} nodes"


@dataclass
class Elections:
    """One run of elections: a bare append and a chain of commits around it, their own times in microseconds, and the late Stands."""

    base: float
    hops: float
    times: list[float]
    late: int

    @property
    def middle(self) -> float:
        return statistics.median(self.times)


class Bench:
    """What all rows are run with."""

    def __init__(self, rings: Rings, runs: int) -> None:
        self.rings, self.folder, self.runs = rings, rings.folder, runs
        self.load = compiled(self.folder)
        self.has_doors = "--doors" in call([rings.ringd, "--help"])
        self.bases: list[float] = []
        self.scrapes = 0

    def bare(self, grows: bool) -> float:
        """The microseconds of a bare append."""
        words = [self.load, "bare", os.path.join(self.folder, "bare"), str(APPENDS), str(int(grows))]
        return int(call(words).split()[1]) / APPENDS / 1e3

    def between(self, work) -> tuple[float, object]:
        """The microseconds of a bare append around some work, and what the work gives."""
        before = self.bare(False)
        given = work()
        base = (before + self.bare(False)) / 2
        self.bases.append(base)
        return base, given

    def serve(self, row: Row, rounds: int) -> dict[str, float]:
        """One run of a row; with no rounds its sessions say nothing."""
        # one session more at each node, so that the server goes on until it is at rest
        server = Server(self.rings, row.clients + 1, row.clients)
        given: dict[str, float] = {}
        scraper = None
        try:
            if self.rings.pause is not None and rounds:
                scraper = Scraper(server.port + RING, self.rings.pause)
            here = 0
            if rounds:
                here = row.clients
                numbers = (server.port, row.nodes, row.clients, rounds, int(row.asks))
                begun = time.monotonic()
                for line in call([self.load, "stands", *map(str, numbers)]).splitlines():
                    name, *figures = line.split()
                    given[name] = int(figures[0])
                    for part, figure in zip(("50", "90", "99"), figures[1:]):
                        given[name + part] = int(figure) / 1e3
                if scraper:
                    self.scrapes += scraper.end()
                    scraper = None
                given["writes"], seen = server.rest()
                given["done"] = seen - begun
            sessions = [row.clients + 1 - (here if place < row.nodes else 0) for place in range(RING)]
            given["inputs"], given["processor"] = server.end(sessions)
        finally:
            if scraper:
                scraper.ends.set()
            server.stop()
        return given

    def run(self, row: Row) -> None:
        """Runs a row once, and keeps its figures."""
        rounds = STANDS // row.clients
        row.idle.append(self.serve(row, 0)["processor"])
        base, given = self.between(lambda: self.serve(row, rounds))
        answers = given["stand"] + given.get("who", 0)
        seconds = given["wall"] / 1e9
        row.add("answers", answers / seconds)
        row.add("stands", given["stand"] / seconds)
        row.add("us", seconds * 1e6 / given["stand"])
        row.add("per append", base * given["stand"] / seconds / 1e6)
        row.add("batch", given["inputs"] / (given["writes"] / 2))
        row.add("processor", (given["processor"] - statistics.median(row.idle)) * 1e6 / answers)
        row.add("done", given["done"])
        for name in ("stand50", "stand99", "who50", "who99"):
            if name in given:
                row.add(name, given[name])

    def hops(self, rest: int) -> float:
        """The microseconds of so many commits as an election has, one behind the other, with nobody woken."""
        lines = call([self.load, "hops", self.folder, str(HOPS), str(ELECTIONS), str(rest)]).splitlines()
        return statistics.median(int(line.split()[1]) for line in lines) / 1e3

    def elect(self, rest: int) -> "Elections":
        """One run of elections behind such rests."""

        def work() -> str:
            server = Server(self.rings, 1, 1)
            try:
                text = call([self.load, "elections", str(server.port), str(RING), str(ELECTIONS), str(rest)])
                server.end([0] * RING)
                return text
            finally:
                server.stop()

        before = self.hops(rest)
        base, text = self.between(work)
        hops = (before + self.hops(rest)) / 2
        lines = [line.split() for line in str(text).splitlines()]
        return Elections(base, hops, [int(line[1]) / 1e3 for line in lines], sum(int(line[2]) for line in lines))


def best_times(program: str, folder: str) -> dict[int | str, list[float]]:
    """The microseconds that a program prints: of a bare append, and of each way of each count of clients, in order."""
    found: dict[int | str, list[float]] = {}
    for line in call([program, folder], 4 * SECONDS).splitlines():
        bare = re.match(r"bare append of 64 bytes with a sync:\s*([\d.]+) us", line)
        clients = re.match(r"sockets,\s*(\d+):\s*([\d.]+) us an answer", line)
        if bare:
            found.setdefault("bare", []).append(float(bare.group(1)))
        elif clients:
            found.setdefault(int(clients.group(1)), []).append(float(clients.group(2)))
    if "bare" not in found or len(found) == 1:
        raise Failed(f"{program}: it prints no times")
    return found


HEADS = (
    "clients",
    "lines",
    "answers a second",
    "Stands a second",
    "Stands an append",
    "Stand 50th, 99th",
    "who 50th, 99th",
    "inputs a batch",
    "processor, us",
    "done, s",
)


def print_row(row: Row) -> None:
    """The figures of a row."""
    middle, per = row.middle, row.figures["per append"]
    cells = (
        f"{row.clients} at {row.place}",
        "stand, who" if row.asks else "stand",
        f"{middle('answers'):,.0f}",
        f"{middle('stands'):,.0f}",
        f"{middle('per append'):.2f} ({min(per):.2f} to {max(per):.2f})",
        f"{middle('stand50'):,.0f}, {middle('stand99'):,.0f}",
        f"{middle('who50'):,.0f}, {middle('who99'):,.0f}" if row.asks else "",
        f"{middle('batch'):.1f}",
        f"{middle('processor'):.0f}",
        f"{middle('done'):.2f}",
    )
    print(f"| {' | '.join(cells)} |", flush=True)


def print_elections(bench: Bench) -> None:
    """Elections of three Stands, one after the other."""
    for rest in RESTS:
        runs = [bench.elect(rest) for _ in range(bench.runs)]
        times = sorted(time for run in runs for time in run.times)
        appends, hops = [run.middle / run.base for run in runs], [run.middle / run.hops for run in runs]
        print(
            f"elections behind {rest:,} us, a Stand at each of {RING} nodes: 50th and 90th percentile {times[len(times) // 2]:.0f} and"
            f" {times[len(times) * 9 // 10]:.0f} us, {statistics.median(appends):.1f} bare appends ({min(appends):.1f} to {max(appends):.1f}),"
            f" {statistics.median(hops):.2f} times {HOPS} commits with nobody woken ({min(hops):.2f} to {max(hops):.2f});"
            f" {sum(run.late for run in runs)} of {RING * len(times)} Stands came late",
            flush=True,
        )


def print_against(rows: list[Row], before: dict[int | str, list[float]], behind: dict[int | str, list[float]]) -> None:
    """The ratios to what is to be had at best."""
    first, last = before["bare"][0], behind["bare"][0]
    print(f"against the best: a bare append with a sync took {first:.1f} us before the rows and {last:.1f} us behind")
    for row in rows:
        if row.nodes != 1 or row.asks or row.clients not in before:
            continue
        best = min((one + other) / 2 for one, other in zip(before[row.clients], behind[row.clients]))
        us = row.middle("us")
        print(
            f"{row.clients} at node 1, stand: {us:.1f} us an answer, at best {best:.1f} us; {us / best:.2f} times as long,"
            f" {best / us:.2f} of its answers"
        )


def turns(words: argparse.Namespace, folder: str) -> None:
    """Each row by two servers in turns, which begin by turns too."""
    paths = (words.turns, words.ringd)
    benches = [Bench(Rings(os.path.abspath(path), folder, words.capacity, None), words.runs) for path in paths]
    print(f"| clients | lines | {words.turns} | {words.ringd} | ratio |\n|---|---|---|---|---|", flush=True)
    ratios = []
    for nodes, clients, asks in itertools.product((1, RING), COUNTS, (False, True)):
        rows = [Row(nodes, clients, asks) for _ in benches]
        for run in range(words.runs):
            for place in (0, 1) if run % 2 == 0 else (1, 0):
                benches[place].run(rows[place])
        before, now = (row.middle("answers") for row in rows)
        ratios.append(now / before)
        lines = "stand, who" if asks else "stand"
        print(f"| {clients} at {rows[0].place} | {lines} | {before:,.0f} | {now:,.0f} | {now / before:.3f} |", flush=True)
    print(f"\nof all rows {statistics.geometric_mean(ratios):.3f}")
    for rest in RESTS:
        runs: tuple[list[Elections], list[Elections]] = ([], [])
        for run in range(words.runs):
            for place in (0, 1) if run % 2 == 0 else (1, 0):
                runs[place].append(benches[place].elect(rest))
        before, now = (statistics.median(run.middle for run in some) for some in runs)
        hops = [statistics.median(run.middle / run.hops for run in some) for some in runs]
        print(
            f"elections behind {rest:,} us: {before:,.0f} and {now:,.0f} us, {now / before:.3f} times as long;"
            f" {hops[0]:.2f} and {hops[1]:.2f} times {HOPS} commits with nobody woken",
            flush=True,
        )


def busy() -> tuple[float, float]:
    """The seconds that all processors were busy by now, and those that this program and its children have taken of them."""
    with open("/proc/stat", encoding="ascii") as file:
        user, nice, system, _, _, irq, softirq = map(int, file.readline().split()[1:8])
    mine = sum(sum(resource.getrusage(who)[:2]) for who in (resource.RUSAGE_SELF, resource.RUSAGE_CHILDREN))
    return (user + nice + system + irq + softirq) / os.sysconf("SC_CLK_TCK"), mine


def age(rings: Rings, terms: int) -> None:
    """One ring elects so many terms in each group, and retires them."""
    load, server = compiled(rings.folder), Server(rings, None, GROUPS)
    try:
        before = server.memory()
        numbers = (server.port, RING, GROUPS, terms, KEEP)
        lines = [line.split() for line in call([load, "years", *map(str, numbers)], SECONDS + terms).splitlines()]
        told = {name: [int(figure) for figure in figures] for name, *figures in lines}
        nodes = json.loads(read(server.port + RING, "/status").partition(b"\r\n\r\n")[2])["nodes"]
        print_age(rings, terms, told, nodes, server.memory() - before)
    finally:
        server.stop()


def print_age(rings: Rings, terms: int, told: dict[str, list[int]], nodes: list[dict], grown: int) -> None:
    """What an aged ring took and holds. Raises where a node refused a client, or is not well."""
    refusals = {node["node"]: node["sessions"]["refusals"] for node in nodes if node["sessions"]["refusals"]}
    states = [node["state"] for node in nodes]
    if refusals or states != ["well"] * RING:
        raise Failed(f"the nodes are {', '.join(states)}; refused was {refusals or 'nothing'}")
    seconds, (count, *elections) = told["wall"][0] / 1e9, told["election"]
    print(
        f"{terms:,} terms in each of {GROUPS} groups, all but {KEEP} retired, at {rings.capacity:,} bytes: {seconds:,.0f} s,"
        f" {count / seconds:,.0f} elections a second, and nothing was refused"
    )
    for name, times in (("an election", elections), ("a Retire", told["retire"][1:])):
        print(f"{name}: 50th, 90th and 99th percentile {', '.join(f'{time / 1e3:,.0f}' for time in times)} us")
    inputs = sum(node["journal"]["inputs"] for node in nodes)
    for name, values in (
        ("inputs", [node["journal"]["inputs"] for node in nodes]),
        ("checkpoints", [node["journal"]["checkpoints"] for node in nodes]),
        ("bytes used", [node["journal"]["used"] for node in nodes]),
        ("bytes of a snapshot", [node["journal"]["snapshot"] for node in nodes]),
        ("Stands left", [node["stands"]["left"] for node in nodes]),
    ):
        print(f"{name} of the nodes: {', '.join(f'{value:,}' for value in values)}")
    print(f"memory grew by {grown / 2**20:,.1f} MiB, {grown / inputs:.0f} bytes an input")


def run(words: argparse.Namespace, folder: str) -> None:
    begun, all_before, mine_before = time.monotonic(), *busy()
    pause = words.scrape / 1e3 if words.scrape else None
    bench = Bench(Rings(os.path.abspath(words.ringd), folder, words.capacity, pause), words.runs)
    before = best_times(os.path.abspath(words.against), folder) if words.against else {}
    grows = statistics.median(bench.bare(True) for _ in range(9))
    holds = statistics.median(bench.bare(False) for _ in range(9))
    print(
        f"a bare append of 64 bytes with a sync: {holds:.1f} us in a file that has its length, {grows:.1f} us where the file grows;"
        " ratios are to the first",
        flush=True,
    )
    counts = COUNTS if bench.has_doors else COUNTS[:1]
    if pause is not None:
        counts = tuple(min(count, MOST_SCRAPED) for count in counts)
    print(f"\n| {' | '.join(HEADS)} |\n|{'---|' * len(HEADS)}", flush=True)
    rows = [Row(nodes, clients, asks) for nodes in (1, RING) for clients in counts for asks in (False, True)]
    for row in rows:
        for _ in range(words.runs):
            bench.run(row)
        print_row(row)
    print()
    if pause is not None:
        print(f"scraped {bench.scrapes} times in these runs")
    if not bench.has_doors:
        print("no rows of more than one client at a node: this server has no --doors")
    print_elections(bench)
    bases = bench.bases
    print(f"a bare append around these runs: {min(bases):.1f} to {max(bases):.1f} us, {statistics.median(bases):.1f} us in the middle")
    if words.against:
        print_against(rows, before, best_times(os.path.abspath(words.against), folder))
    took, all_behind, mine_behind = time.monotonic() - begun, *busy()
    others = (all_behind - all_before - (mine_behind - mine_before)) / took
    print(f"{took:.0f} s; others took {others:.1f} of {os.cpu_count()} processors meanwhile")


def main() -> int:
    parser = argparse.ArgumentParser(description="Times ringd under load. The head of this file says what it prints.")
    parser.add_argument("--ringd", default="bin/ringd")
    parser.add_argument("--folder", default=".")
    parser.add_argument("--runs", type=int, default=9, metavar="N")
    parser.add_argument("--against", metavar="PROGRAM")
    parser.add_argument("--capacity", type=int, metavar="C")
    parser.add_argument("--scrape", type=int, metavar="MS")
    parser.add_argument("--turns", metavar="PATH")
    parser.add_argument("--years", type=int, metavar="TERMS")
    words = parser.parse_args()
    if not 1 <= words.runs <= 100:
        parser.error("--runs is 1 to 100")
    if words.capacity is None:
        words.capacity = SMALL if words.years else CAPACITY
    if not 4096 <= words.capacity <= CAPACITY:
        parser.error("--capacity is 4,096 to 1,048,576")
    if words.scrape is not None and not 1 <= words.scrape <= 60_000:
        parser.error("--scrape is 1 to 60,000")
    if words.years is not None and not KEEP < words.years <= 1_000_000:
        parser.error("--years is 11 to 1,000,000")
    folder = ""
    try:
        folder = tempfile.mkdtemp(prefix="load-", dir=os.path.abspath(words.folder))
        if words.years:
            age(Rings(os.path.abspath(words.ringd), folder, words.capacity, SECONDS), words.years)
        elif words.turns:
            turns(words, folder)
        else:
            run(words, folder)
        return 0
    except (Failed, OSError) as error:
        print(f"load.py: {error}", file=sys.stderr)
        return 1
    finally:
        if folder:
            shutil.rmtree(folder, ignore_errors=True)


if __name__ == "__main__":
    sys.exit(main())
