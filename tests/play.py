#!/usr/bin/env python3
"""Plays rows, each of which is what is asked of a program with what that brings, and prints them with what the program prints now:
rows that hold are printed as they were read.

  tests/play.py KIND FILE ..

The kinds are `console`, scripts for RINGCTL; `ringd`, RINGD over folders and sockets; and `settings`, settings and words for RINGD.
README.md beside this tells the form of each. The status is 0, or 2 where the words are wrong or a program is not there: whoever
plays rows compares what is printed with what was read."""

import contextlib
import fcntl
import os
import re
import shutil
import signal
import socket
import subprocess
import sys
import tempfile
import time
from collections.abc import Callable

from programs import HOST, PATIENCE, RINGCTL, RINGD, free_ports, require

PRINTED = "  "
NO_LINE = "no 25 line"
NO_END = "does not end"
# A start of a row, where somebody else took a port between the look at it and the start, is tried so often.
STARTS = 3
# The ports that rows name. Those of a row become as many that nobody uses.
PORTS = range(7_600, 8_000)
NUMBER = re.compile(r"(?<!\w)\d+(?!\w)", re.ASCII)
ESCAPE = re.compile(rb"\\(?:([nr\\])|x([0-9a-f]{2})|.|$)", re.DOTALL)
TIME = re.compile(r"^\d{4}-\d\d-\d\dT\d\d:\d\d:\d\dZ(?= )")
DATE = re.compile(rb"\r\nDate: \w{3}, .{21}GMT\r\n")


class NoBytes(Exception):
    """A backslash in a text has no meaning."""


def bytes_of(text: str) -> bytes:
    """The bytes that a text writes: `\\n`, `\\r`, `\\\\` and `\\xHH` are one each."""
    def one(it: "re.Match[bytes]") -> bytes:
        if it[2]:
            return bytes([int(it[2], 16)])
        if not it[1]:
            raise NoBytes
        return {b"n": b"\n", b"r": b"\r", b"\\": b"\\"}[it[1]]

    return ESCAPE.sub(one, text.encode(errors="surrogateescape"))


def text_of(told: bytes) -> str:
    """What a program or a client was told, with `\\xHH` for each byte that is no text."""
    return told.decode(errors="backslashreplace")


def lines_of(text: str) -> list[str]:
    """The lines of a text, without those that are empty."""
    return [line for line in text.replace("\r\n", "\n").split("\n") if line]


class Patience:
    """How long is waited. Once something did not come at all, the rows do not hold, and the others are waited for a tenth as long."""

    def __init__(self, seconds: float = PATIENCE) -> None:
        self.seconds = seconds

    def end(self) -> float:
        """When a wait that begins now ends."""
        return time.monotonic() + self.seconds

    def lose(self) -> None:
        """Something did not come."""
        self.seconds = min(self.seconds, max(1.0, self.seconds / 10))


class Run:
    """A program that runs on these words, the first of which is its name, in this folder, and reads these bytes."""

    def __init__(self, program: str, words: list[str], given: bytes, folder: str, patience: Patience) -> None:
        self.patience = patience
        self.streams = [tempfile.TemporaryFile() for _ in range(3)]
        self.streams[0].write(given)
        self.streams[0].seek(0)
        stdin, stdout, stderr = self.streams
        self.process = subprocess.Popen(words, executable=program, cwd=folder, stdin=stdin, stdout=stdout, stderr=stderr, start_new_session=True)

    def __enter__(self) -> "Run":
        return self

    def __exit__(self, *_: object) -> None:
        self.kill()
        for stream in self.streams:
            stream.close()

    def is_over(self) -> bool:
        return self.process.poll() is not None

    def kill(self) -> None:
        """Ends it with all that it started, if it runs."""
        if not self.is_over():
            with contextlib.suppress(ProcessLookupError):
                os.killpg(self.process.pid, signal.SIGKILL)
            self.process.wait()

    def end(self) -> str:
        """How it ends. One that does not is ended."""
        try:
            status = self.process.wait(self.patience.seconds)
        except subprocess.TimeoutExpired:
            self.kill()
            self.patience.lose()
            return NO_END
        return f"ends {status}" if status >= 0 else f"ends by signal {-status}"

    def told(self, stream: int) -> str:
        """What it wrote to standard output, 1, or to standard error, 2."""
        self.streams[stream].seek(0)
        return text_of(self.streams[stream].read())


def row_of(lines: list[str]) -> list[str]:
    """What a row asks."""
    return [line for line in lines if not line.startswith(PRINTED)]


def printed(lines: list[str]) -> list[str]:
    """The lines that the line above them printed."""
    return [PRINTED + line for line in lines]


# ---- Scripts.


def script_prints(program: str, lines: list[str], patience: Patience) -> tuple[list[str], list[str]]:
    """What the script of these lines prints, and how it ends where that is not well."""
    with Run(program, ["ringctl"], "".join(f"{line}\n" for line in lines).encode(errors="surrogateescape"), ".", patience) as run:
        ends = run.end()
        rest = [*lines_of(run.told(2)), *([] if ends == "ends 0" else [ends])]
        return run.told(1).split("\n")[:-1], rest


def prints_of_each(program: str, lines: list[str], patience: Patience) -> list[list[str]]:
    """What each line of a script prints: where the script up to it, and with it, differ.

    In one run behind each line stands another one, which is no command: it changes nothing, and prints a line that shows where what
    stands before it ends. Where the others print that line too, or do not print what they do alone, each front of the script is run.
    One that does not end is run no more: all that it printed is told of the last line."""
    whole, rest = script_prints(program, lines, patience)
    if NO_END in rest:
        return [*([] for _ in lines[1:]), [*whole, *rest]]
    marked, marked_rest = script_prints(program, [it for line in lines for it in (line, "mark")], patience)
    if not rest and not marked_rest and marked.count(NO_LINE) == len(lines) and [it for it in marked if it != NO_LINE] == whole:
        parts: list[list[str]] = [[]]
        for it in marked:
            parts.append([]) if it == NO_LINE else parts[-1].append(it)
        return parts[:-1]
    fronts: list[list[str]] = [[]]
    each = []
    for count in range(1, len(lines) + 1):
        front, rest = script_prints(program, lines[:count], patience)
        grown = front[:len(fronts[-1])] == fronts[-1]
        each.append([*(front[len(fronts[-1]):] if grown else ["the lines above print another text:", *front]), *rest])
        fronts.append(front)
    return each


def play_console(program: str, stands: list[str], patience: Patience) -> list[str]:
    """The row is a script."""
    lines = row_of(stands)
    each = prints_of_each(program, lines, patience) if lines else []
    return [it for line, told in zip(lines, each) for it in (line, *printed(told))]


# ---- Settings and words.


def what_is_read(run: Run) -> list[str]:
    """The settings that are shown, or why they are refused, with a star for the time; of words that are refused, in which way."""
    ends, out, err = run.end(), run.told(1), run.told(2)
    refused = re.match(r"(<\d>|\* error |)ringd: (.*)\n", TIME.sub("*", err))
    if ends == "ends 0" and out.startswith("nodes ") and not err:
        return [" ".join(out.split("\n")[:-1])]
    if ends == "ends 2" and refused and not out:
        return [refused[1] + refused[2]]
    if not ends.startswith("ends ") or bool(out) == bool(err):
        return [*lines_of(out), *lines_of(err), ends]
    return [f"status {ends.split()[-1]} on standard {'output' if out else 'error'}"]


def play_settings(program: str, stands: list[str], patience: Patience) -> list[str]:
    """The settings are the lines up to `! reads`. Words are run on none."""
    out, settings = [], ""
    with tempfile.TemporaryDirectory(prefix="rows-") as folder:
        for line in row_of(stands):
            told = []
            if re.match(r"ringd( |$)", line):
                with Run(program, line.split(" "), b"", folder, patience) as run:
                    told = what_is_read(run)
            elif line == "! reads":
                with Run(program, ["ringd"], settings.encode(errors="surrogateescape"), folder, patience) as run:
                    told = what_is_read(run)
                settings = ""
            elif not line.startswith("#"):
                settings += f"{line}\n"
            out += [line, *printed(told)]
    return out


# ---- Rings, over folders and sockets.


class Ports:
    """The ports of a row, which become others that nobody uses. Those are given back as they stand."""

    def __init__(self, stands: list[str]) -> None:
        named: set[int] = set()
        for line in stands:
            if ring := re.match(r"ring (\d+) \S+ (\d+)", line):
                # The port before the first node's is an operator's.
                named.update(range(int(ring[2]) - 1, int(ring[2]) + int(ring[1])))
        named.intersection_update(PORTS)
        self.given: dict[str, str] = {}
        self.back: dict[str, str] = {}
        if not named:
            return
        low, count = min(named), max(named) - min(named) + 1
        others = {*NUMBER.findall("\n".join(stands))}
        while not self.given or others.intersection(self.given.values()):
            first = free_ports(count)
            self.given = {str(low + at): str(first + at) for at in range(count)}
        # A port that stands in the row, and is none that the program was given, is told as another one.
        self.back = {**self.given, **{there: here for here, there in self.given.items()}}

    def give(self, text: str) -> str:
        """The text, with the ports that the program is given."""
        return NUMBER.sub(lambda it: self.given.get(it[0], it[0]), text)

    def tell(self, text: str) -> str:
        """The text, with the ports that stand in the row."""
        return NUMBER.sub(lambda it: self.back.get(it[0], it[0]), text)


def looked(text: str) -> list[str]:
    """Lines of a look at a ring, with a star for each count that differs from run to run."""
    total, told = 0, []
    for line in lines_of(text):
        it = re.fullmatch(r"(.*?) inputs (\d+) behind (\d+)", line)
        if it and int(it[3]) <= int(it[2]):
            total += int(it[2])
            told.append(f"{it[1]} inputs * behind {'0' if int(it[3]) == 0 else '*'}")
        else:
            told.append("audit ok *" if line == f"audit ok {total}" else line)
    return told


class Session:
    """The sessions at a node: the one that is open, and how many were begun."""

    def __init__(self) -> None:
        self.stream: "socket.socket | None" = None
        self.begun = 0


class Serving:
    """A ring that serves, its clients, and what an operator asked."""

    def __init__(self, row: "RingRow", words: str) -> None:
        self.row, self.patience = row, row.patience
        count = re.search(r" --serve (\d+)", words)
        self.count = int(count[1]) if count else 0
        self.sessions = [Session() for _ in range(row.nodes)]
        self.asked: "socket.socket | None" = None
        self.is_deaf = False
        self.run = row.start(words)

    def connect(self, port: int) -> "socket.socket | None":
        """A connection to a port that the row names, which nobody may listen at yet; none where the program is over, or deaf."""
        until = self.patience.end()
        while not self.is_deaf:
            is_last = self.run.is_over()
            try:
                stream = socket.create_connection((HOST, int(self.row.ports.give(str(port)))), timeout=self.patience.seconds)
                stream.setsockopt(socket.IPPROTO_TCP, socket.TCP_NODELAY, 1)
                return stream
            except OSError:
                if is_last:
                    return None
                if time.monotonic() > until:
                    self.is_deaf = True
                    self.patience.lose()
            time.sleep(0.001)
        return None

    def answer(self, stream: socket.socket, text: bytes) -> str:
        """The line that these bytes are answered."""
        line = b""
        try:
            stream.sendall(text)
            while not line.endswith(b"\n") and (more := stream.recv(1)):
                line += more
        except socket.timeout:
            self.patience.lose()
            return "no answer in time"
        except OSError:
            pass
        return text_of(line.rstrip(b"\n"))

    def say(self, node: int, line: str) -> list[str]:
        """What a client says, in the session that is open or else in a new one."""
        if not 1 <= node <= len(self.sessions):
            return ["no node"]
        session = self.sessions[node - 1]
        if session.stream is None:
            session.stream = self.connect(self.row.port + node - 1)
            session.begun += session.stream is not None
        if session.stream is None:
            return ["no door"]
        is_waited, line = line.startswith("until "), line.removeprefix("until ")
        text, until = bytes_of(line) + b"\n", self.patience.end()
        answer = self.answer(session.stream, text)
        while is_waited and answer == "none" and time.monotonic() < until:
            time.sleep(0.001)
            answer = self.answer(session.stream, text)
        if is_waited and answer == "none":
            self.patience.lose()
        if line == "bye":
            session.stream.close()
            session.stream = None
        return [answer or "no answer"]

    def sent(self, text: bytes) -> "socket.socket | None":
        """A connection of an operator, who sent these bytes."""
        stream = self.connect(self.row.port - 1)
        if stream is not None:
            with contextlib.suppress(OSError):
                stream.sendall(text)
        return stream

    def answered(self, stream: "socket.socket | None") -> "str | None":
        """What an operator is answered, up to its end; none where it has no date."""
        if stream is None:
            return None
        text = b""
        with stream:
            try:
                while more := stream.recv(65_536):
                    text += more
            except socket.timeout:
                self.patience.lose()
            except OSError:
                pass
        return self.row.ports.tell(text_of(text)) if DATE.search(text) else None

    def get(self, target: str) -> "socket.socket | None":
        return self.sent(f"GET {target} HTTP/1.1\r\nHost: a\r\n\r\n".encode())

    def has(self, target: str, text: bytes, is_waited: bool) -> bool:
        """Whether the answer is 200 and has the text, now or in the end."""
        until = self.patience.end()
        while True:
            answer = self.answered(self.get(target))
            if answer and answer.startswith("HTTP/1.1 200 OK\r\n") and text_of(text) in answer:
                return True
            if not is_waited:
                return False
            if time.monotonic() > until or self.is_deaf:
                self.patience.lose()
                return False
            time.sleep(0.001)

    @staticmethod
    def body(answer: "str | None") -> list[str]:
        """The status of an answer, and its text."""
        if answer is None:
            return ["no answer"]
        head, _, body = answer.partition("\r\n\r\n")
        return [head.split("\r\n")[0], *lines_of(body)]

    def obey(self, line: str) -> list[str]:
        """What comes of a line."""
        verb, _, rest = line.partition(" ")
        if verb.isdecimal():
            return self.say(int(verb), rest)
        target, _, text = rest.partition(" has ")
        if verb in ("get", "until") and text:
            return ["yes" if self.has(target, bytes_of(text), verb == "until") else "no"]
        if verb == "get":
            return self.body(self.answered(self.get(rest)))
        if verb == "send":
            answer = self.answered(self.sent(bytes_of(rest)))
            return ["no answer"] if answer is None else [it for it in lines_of(answer) if not it.startswith("Date: ")]
        if verb == "ask":
            self.asked = self.get(rest)
            return []
        if verb == "answer":
            return self.body(self.answered(self.asked))
        return [] if line.startswith("#") else [NO_LINE]

    def part(self) -> list[str]:
        """Ends the sessions that are open, and begins and ends those that are left, which tells where one does not end by `bye`."""
        told = []
        for node, session in enumerate(self.sessions):
            port = self.row.port + node
            streams = [session.stream] if session.stream else []
            ends = [self.answer(stream, b"bye\n") for stream in streams]
            for _ in range(session.begun, self.count):
                stream = self.connect(port)
                if stream is None:
                    break
                streams.append(stream)
                ends.append(self.answer(stream, b"bye\n"))
            for stream in streams:
                stream.close()
            if any(it != "bye" for it in ends):
                told.append(f"no bye at {port}")
        return told

    def end(self, how: str) -> list[str]:
        """How the ring ends, once its clients went."""
        ends, tell = self.run.end(), self.row.ports.tell
        told = [*(lines_of(tell(self.run.told(1))) if how == "end whole" else []), *lines_of(tell(self.run.told(2))), ends]
        self.close()
        return told

    def close(self) -> None:
        """Ends all that is left of it."""
        self.run.__exit__()
        for stream in (self.asked, *(session.stream for session in self.sessions)):
            if stream is not None:
                stream.close()


class RingRow:
    """The ring of a row, in a folder of its own, and what is held beside it."""

    def __init__(self, program: str, stands: list[str], folder: str, patience: Patience) -> None:
        self.program, self.folder, self.patience, self.ports = program, folder, patience, Ports(stands)
        self.nodes, self.dir, self.port, self.capacity, self.settings = 0, "", 0, 65_536, b""
        self.held = contextlib.ExitStack()
        self.serving: "Serving | None" = None

    def __enter__(self) -> "RingRow":
        return self

    def __exit__(self, *_: object) -> None:
        self.held.close()
        if self.serving is not None:
            self.serving.close()

    def start(self, words: str) -> Run:
        return Run(self.program, self.ports.give(words).split(" "), self.settings, self.folder, self.patience)

    def path(self, name: str) -> str:
        return os.path.join(self.folder, self.dir, name)

    def rings(self, text: str) -> list[str]:
        """These are the ring, and its settings."""
        ring = re.fullmatch(r"(\d+) (\S+) (\d+)(?: (\d+))?", text)
        if not ring:
            return ["no ring"]
        self.nodes, self.dir, self.port, self.capacity = int(ring[1]), ring[2], int(ring[3]), int(ring[4] or 65_536)
        port = self.ports.give(str(self.port))
        self.settings = f'nodes = {self.nodes}\ndir = "{self.dir}"\nport = {port}\ncapacity = {self.capacity}\n'.encode()
        return []

    def anew(self) -> None:
        shutil.rmtree(self.path(""), ignore_errors=True)
        os.mkdir(self.path(""))

    def read(self, name: str) -> bytes:
        with open(self.path(name), "rb") as it:
            return it.read()

    def write(self, name: str, text: bytes) -> None:
        with open(self.path(name), "wb") as it:
            it.write(text)

    def alter(self, name: str, text: str) -> list[str]:
        """The first bytes of the file that are these become the others."""
        data, (these, others) = self.read(name), map(bytes_of, text.split(" "))
        if these not in data:
            return ["no"]
        self.write(name, data.replace(these, others, 1))
        return []

    def journal(self, name: str) -> list[str]:
        """The greatest epoch of a journal's areas, and their layouts. An area that counts begins with 1, and layout 1 has no epoch."""
        data = self.read(name)
        areas = [data[16:26], data[31 + self.capacity:41 + self.capacity]]
        epochs = [int.from_bytes(it[2:], "big") for it in areas if len(it) == 10 and it[0] == 1 and it[1] > 1]
        return [f"epoch {max(epochs, default=0)} layouts {' '.join(str(it[1]) if len(it) > 1 else '0' for it in areas)}"]

    def lock(self, name: str) -> None:
        file = os.open(self.path(name), os.O_RDONLY)
        self.held.callback(os.close, file)
        fcntl.flock(file, fcntl.LOCK_EX | fcntl.LOCK_NB)

    def listen(self, port: str) -> None:
        self.held.enter_context(socket.create_server((HOST, int(self.ports.give(port)))))

    def runs(self, line: str) -> list[str]:
        """Runs the program to its end."""
        verb, _, words = line.partition(" ")
        with self.start(line if verb == "ringd" else words) as run:
            ends = run.end()
            out, err = self.ports.tell(run.told(1)), self.ports.tell(run.told(2))
        return [*(looked(out) if verb == "looks" else lines_of(out) if verb == "shows" else []), *lines_of(err), ends]

    def obey(self, line: str) -> list[str]:
        """What comes of a line."""
        verb, _, rest = line.partition(" ")
        name, _, text = rest.partition(" ")
        calls: "dict[str, Callable[[], list[str] | None]]" = {
            "ring": lambda: self.rings(rest),
            "settings": lambda: setattr(self, "settings", bytes_of(rest)),
            "anew": self.anew,
            "gone": lambda: shutil.rmtree(self.path("")),
            "files": lambda: sorted(os.listdir(self.path(""))),
            "folder": lambda: os.mkdir(self.path(name)),
            "no-folder": lambda: os.rmdir(self.path(name)),
            "remove": lambda: os.remove(self.path(name)),
            "rename": lambda: os.rename(self.path(name), self.path(text)),
            "copy": lambda: shutil.copyfile(self.path(name), self.path(text)) and None,
            "write": lambda: self.write(name, bytes_of(text)),
            "alter": lambda: self.alter(name, text),
            "same": lambda: ["yes" if self.read(name) == self.read(text) else "no"],
            "journal": lambda: self.journal(name),
            "lock": lambda: self.lock(name),
            "listen": lambda: self.listen(name),
            "release": lambda: self.held.close(),
            **{verb: lambda: self.runs(line) for verb in ("ringd", "shows", "looks")},
        }
        return [] if line.startswith("#") else calls.get(verb, lambda: [NO_LINE])() or []

    def ends(self, how: str) -> list[str]:
        """The ring serves no more."""
        assert self.serving is not None
        told = [*printed(self.serving.part()), how, *printed(self.serving.end(how))]
        self.serving = None
        return told

    def play(self, line: str) -> list[str]:
        """A line, with what it prints."""
        if self.serving and line.startswith("end"):
            return self.ends(line)
        if not self.serving and line.endswith(" &"):
            self.serving = Serving(self, line.removesuffix(" &"))
            return [line]
        try:
            told = (self.serving or self).obey(line)
        except NoBytes:
            told = [NO_LINE]
        except OSError as fault:
            told = [f"{os.strerror(fault.errno)} (os error {fault.errno})" if fault.errno else str(fault)]
        return [line, *printed(told)]


def play_ringd(program: str, stands: list[str], patience: Patience) -> list[str]:
    """The row is calls of `ringd`, and of what it serves. It is played anew where somebody else took one of its ports."""
    told: list[str] = []
    for _ in range(STARTS):
        with tempfile.TemporaryDirectory(prefix="rows-") as folder, RingRow(program, stands, folder, patience) as row:
            told = [it for line in row_of(stands) for it in row.play(line)]
            told += row.ends("end") if row.serving else []
        if told == stands or not any("ddress already in use" in it or "cannot be used" in it for it in told):
            break
    return told


# ---- Files.


KINDS: "dict[str, tuple[str, Callable[[str, list[str], Patience], list[str]]]]" = {
    "console": (RINGCTL, play_console),
    "ringd": (RINGD, play_ringd),
    "settings": (RINGD, play_settings),
}


def played(kind: str, text: str, program: str = "", patience: float = PATIENCE) -> str:
    """The rows, with what their lines print now. An empty line ends a row."""
    usual, play = KINDS[kind]
    require(program or usual)
    wait, rows = Patience(patience), [[]]
    for line in text.removesuffix("\n").split("\n"):
        rows[-1].append(line) if line else rows.append([])
    return "\n".join("".join(f"{line}\n" for line in play(program or usual, stands, wait)) for stands in rows)


def read(path: str) -> str:
    """The rows of a file."""
    with open(path, encoding="utf-8", errors="surrogateescape", newline="") as it:
        return it.read()


def main() -> int:
    kind, *paths = sys.argv[1:] or [""]
    if kind not in KINDS or not paths:
        print(f"usage: tests/play.py KIND FILE .., a KIND being {', '.join(KINDS)}", file=sys.stderr)
        return 2
    for it in (signal.SIGTERM, signal.SIGHUP):
        signal.signal(it, lambda number, _: sys.exit(128 + number))
    sys.stdout.reconfigure(errors="surrogateescape")  # type: ignore[union-attr]
    try:
        for path in paths:
            print(played(kind, read(path)), end="", flush=True)
    except (OSError, RuntimeError) as fault:
        print(f"tests/play.py: {fault}", file=sys.stderr)
        return 2
    return 0


if __name__ == "__main__":
    sys.exit(main())
