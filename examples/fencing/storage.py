#!/usr/bin/env python3
"""A storage writer that turns away whoever has a lower fencing number than it has seen.

storage.py FOLDER [HOST]

keeps the file FOLDER/jobs, to which lines are added, and beside it FOLDER/number, the greatest fencing number of a
write that it took. It listens at a free port of HOST, or of 127.0.0.1, prints `port P` and answers lines until it is killed,
as it may be at any moment:

    write TERM TEXT    written N, where the file then has N lines, or refused HELD where TERM is below the number HELD
    count              lines N

TERM is 1 to 999,999,999, TEXT up to 200 bytes. Another line ends its session without an answer. Status 1 where the
folder or a file in it cannot be used, 2 for other arguments.
"""
import contextlib
import os
import socket
import socketserver
import sys
import threading

OWN = "127.0.0.1"


class Refused(Exception):
    """The write was turned away: its term is below this number."""

    def __init__(self, held: int) -> None:
        super().__init__(f"below {held}")
        self.held = held


class Storage:
    """The file and the number. After a fault of the disk nobody knows what is there, so nothing more is taken."""

    def __init__(self, folder: str) -> None:
        self.folder = folder
        self.lock = threading.Lock()
        self.fault: OSError | None = None
        self.held = 0
        if os.path.exists(self.path("number")):
            with open(self.path("number"), encoding="ascii") as file:
                self.held = int(file.read())
        self.file = os.open(self.path("jobs"), os.O_RDWR | os.O_CREAT | os.O_APPEND, 0o644)
        # What stands behind the last line feed was being written at a stop, and was not acknowledged.
        kept = os.pread(self.file, os.fstat(self.file).st_size, 0)
        kept = kept[:kept.rfind(b"\n") + 1]
        os.ftruncate(self.file, len(kept))
        os.fsync(self.file)
        self.sync_folder()
        self.lines = kept.count(b"\n")

    def path(self, name: str) -> str:
        return os.path.join(self.folder, name)

    def sync_folder(self) -> None:
        folder = os.open(self.folder, os.O_RDONLY)
        try:
            os.fsync(folder)
        finally:
            os.close(folder)

    def keep(self, term: int) -> None:
        """Makes the number durable: a new file, synced, gets the name, and the folder is synced."""
        with open(self.path("number.new"), "w", encoding="ascii") as file:
            file.write(f"{term}\n")
            file.flush()
            os.fsync(file.fileno())
        os.rename(self.path("number.new"), self.path("number"))
        self.sync_folder()
        self.held = term

    def write(self, term: int, text: bytes) -> int:
        """Adds a line, and gives how many there are. `Refused` where the term is below the number. Both the number and
        the line are durable before it answers, the number first: a stop between the two leaves a greater number, and
        the line was not acknowledged."""
        with self.lock:
            if self.fault is not None:
                raise self.fault
            if term < self.held:
                raise Refused(self.held)
            try:
                if term > self.held:
                    self.keep(term)
                line = b"%d %s\n" % (term, text)
                if os.write(self.file, line) != len(line):
                    raise OSError("a line was not written whole")
                os.fsync(self.file)
            except OSError as fault:
                self.fault = fault
                raise
            self.lines += 1
            return self.lines

    def answer(self, line: bytes) -> str | None:
        """The answer to a line, or None where the line is none."""
        words = line.rstrip(b"\n").split(b" ", 2)
        if words == [b"count"]:
            with self.lock:
                return f"lines {self.lines}"
        if not line.endswith(b"\n") or len(words) != 3 or words[0] != b"write" or len(words[2]) > 200:
            return None
        if not words[1].isdigit() or not 1 <= int(words[1]) <= 999_999_999:
            return None
        try:
            return f"written {self.write(int(words[1]), words[2])}"
        except Refused as refused:
            return f"refused {refused.held}"


class Session(socketserver.StreamRequestHandler):
    """One client's lines. A client that is paused in the middle of its session holds up nobody else."""

    def handle(self) -> None:
        # A client may be killed at any moment.
        with contextlib.suppress(ConnectionError):
            while line := self.rfile.readline(300):
                answer = self.server.storage.answer(line)
                if answer is None:
                    return
                self.wfile.write(answer.encode() + b"\n")


class Server(socketserver.ThreadingTCPServer):
    """Serves each session in a thread of its own."""
    daemon_threads = True

    def __init__(self, storage: Storage, host: str) -> None:
        self.storage = storage
        super().__init__((host, 0), Session)


class StorageClient:
    """A storage's client, for each question of which a session is opened. `OSError` where no answer came: then nobody
    knows whether the write was taken."""

    def __init__(self, port: int, host: str = OWN) -> None:
        self.place = host, port

    def ask(self, line: str) -> list[str]:
        with socket.create_connection(self.place, 5.0) as connection:
            with connection.makefile("rwb") as session:
                session.write(line.encode() + b"\n")
                session.flush()
                answer = session.readline()
        if not answer.endswith(b"\n"):
            raise ConnectionError("the storage did not answer")
        return answer.decode().split()

    def write(self, term: int, text: str) -> int:
        """Adds a line with this term, and gives how many lines there are. `Refused` where the term is too low."""
        word, number = self.ask(f"write {term} {text}")
        if word == "refused":
            raise Refused(int(number))
        return int(number)

    def count(self) -> int:
        """How many lines there are."""
        return int(self.ask("count")[1])


def main(words: list[str]) -> int:
    if not 1 <= len(words) <= 2:
        print("usage: storage.py FOLDER [HOST]", file=sys.stderr)
        return 2
    try:
        storage = Storage(words[0])
    except (OSError, ValueError) as fault:
        print(f"storage.py: {fault}", file=sys.stderr)
        return 1
    with Server(storage, words[1] if words[1:] else OWN) as server:
        print(f"port {server.server_address[1]}", flush=True)
        server.serve_forever()
    return 0


if __name__ == "__main__":
    sys.exit(main(sys.argv[1:]))
