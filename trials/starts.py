#!/usr/bin/env python3
"""starts.py [--ringd PATH]

Starts a ring by `ringd` as a careless supervisor might: with each of its standard streams closed or not, all eight
ways, over nodes whose capacity is another one than the settings say, which each start tells. It serves, or it ends
since its output cannot be written, and behind it `--check` finds the files whole. Then with so few descriptors that its
status port has fewer clients than it could have: it answers all the same. With fewer than the ring takes, and where a
file may not have the length of a node's, it is refused, says what it takes, and leaves no file. Where this runs as root,
`--check` looks at the ring on a file system that is read only, and a start there is refused. At last it listens at an
address of IPv6 and at a name, where this host has them, and is refused where a name has no address.

  --ringd PATH   the server, `bin/ringd` by default.

Status 0 where it is so, 1 where it is not, 2 where a word is wrong."""

import argparse
import itertools
import os
import resource
import shutil
import socket
import subprocess
import sys
import tempfile
import time
from collections.abc import Callable

from hangs import get
from short import Failed, free_ports

NODES, SECONDS = 2, 30
# The capacity that the nodes are made with, and the one of the settings behind that.
MADE, TOLD = 65_536, 4_096
# With these a ring of two nodes with a door each serves, but the status port has no 64 clients.
DESCRIPTORS = (24, 64)


class Starts:
    """A folder with a ring that was made, and its starts."""

    def __init__(self, ringd: str, folder: str) -> None:
        self.ringd, self.folder = ringd, folder
        self.settings = os.path.join(folder, "ring.toml")
        os.mkdir(os.path.join(folder, "ring"))
        self.tell(MADE)
        self.ends("--make")
        self.tell(TOLD)

    def tell(self, capacity: int) -> None:
        """Writes the settings, with new ports."""
        self.port = free_ports(NODES + 1)
        with open(self.settings, "w", encoding="ascii") as file:
            file.write(f'nodes = {NODES}\ndir = "{self.folder}/ring"\nport = {self.port}\ncapacity = {capacity}\n')

    def ends(self, *words: str) -> None:
        """Has it end by itself, which has to be well."""
        ended = subprocess.run([self.ringd, "--settings", self.settings, *words], capture_output=True, timeout=SECONDS)
        if ended.returncode != 0:
            raise Failed(f"{words} ends with {ended.returncode}: {ended.stderr.decode(errors='replace')}")

    def start(self, before: Callable[[], None], *words: str) -> "subprocess.Popen[bytes]":
        """Starts it, once `before` was done to its process."""
        command = [self.ringd, "--settings", self.settings, "--always", *words]
        return subprocess.Popen(command, stdin=subprocess.DEVNULL, stdout=subprocess.DEVNULL, stderr=subprocess.DEVNULL,
                                preexec_fn=before)

    def serves(self, process: "subprocess.Popen[bytes]") -> bool:
        """Whether each node answers a session; not where the process ends before."""
        for node in range(NODES):
            until = time.monotonic() + SECONDS
            while not answers(self.port + node):
                if process.poll() is not None:
                    return False
                if time.monotonic() > until:
                    raise Failed(f"node {node + 1} answers nobody")
                time.sleep(0.05)
        return True

    def closed(self, streams: tuple[int, ...]) -> None:
        """A start with these streams closed, and what it leaves."""
        def close() -> None:
            for number in streams:
                os.close(number)

        process = self.start(close)
        serves = self.serves(process)
        process.kill()
        status = process.wait()
        if serves != (1 not in streams) or not serves and status != 1:
            raise Failed(f"without the streams {streams} it {'serves' if serves else f'ends with {status}'}")
        self.ends("--check")

    def few(self, count: int) -> None:
        """A start with so many descriptors at most."""
        def limit() -> None:
            resource.setrlimit(resource.RLIMIT_NOFILE, (count, count))

        process = self.start(limit, "--status", str(self.port + NODES))
        try:
            if not self.serves(process) or get(self.port + NODES, "/health") != (200, "well\n"):
                raise Failed(f"with {count} descriptors it is not well")
        finally:
            process.kill()
            process.wait()


    def refused(self, kind: int, limit: int, text: str, *words: str) -> None:
        """A start that has so much of this at most ends with 1 and this last line."""
        def bound() -> None:
            resource.setrlimit(kind, (limit, limit))

        ended = subprocess.run([self.ringd, "--settings", self.settings, *words], capture_output=True, timeout=SECONDS,
                               preexec_fn=bound, check=False)
        told = ended.stderr.decode("ascii", "replace").splitlines()[-1:]
        if ended.returncode != 1 or told != [f"ringd: {text}"]:
            raise Failed(f"{words} with {limit} at most ends with {ended.returncode}, and says {told}")

    def bounded(self) -> None:
        """Starts with a descriptor less than the ring takes, and where a file may be a byte shorter than a node's: of a
        ring that is there, and of a new one."""
        needed = 4 + NODES * 4
        text = f"{needed - 1} descriptors may be had, and the ring takes {needed}"
        self.refused(resource.RLIMIT_NOFILE, needed - 1, text, "--always")
        size = os.path.getsize(os.path.join(self.folder, "ring", "node-1.crj"))
        for folder, size in (("ring", size), ("new", size - 2 * (MADE - TOLD))):
            self.settings = os.path.join(self.folder, f"{folder}.toml")
            with open(self.settings, "w", encoding="ascii") as file:
                file.write(f'nodes = {NODES}\ndir = "{self.folder}/{folder}"\nport = {self.port}\ncapacity = {TOLD}\n')
            os.makedirs(os.path.join(self.folder, folder), exist_ok=True)
            for words in (["--make"], ["--serve", "1"]):
                text = f"a file may have {size - 1} bytes, and a node's takes {size}"
                self.refused(resource.RLIMIT_FSIZE, size - 1, text, *words)
        left = os.listdir(os.path.join(self.folder, "new"))
        if left:
            raise Failed(f"a start that is refused leaves {left}")


    def read_only(self) -> bool:
        """A look, and a start, where the folder is read only. Whether that can be had."""
        mount = 'mount --bind "$0" "$0" && mount -o remount,ro,bind "$0" && ! touch "$0/new" 2> /dev/null && exec "$@"'
        self.settings = os.path.join(self.folder, "ring.toml")
        alone = ["unshare", "-m", "sh", "-c", mount, os.path.join(self.folder, "ring")]
        if subprocess.run([*alone, "true"], capture_output=True, check=False).returncode != 0:
            return False
        before = os.listdir(os.path.join(self.folder, "ring"))
        ringd = [*alone, self.ringd, "--settings", self.settings]
        looked = subprocess.run([*ringd, "--check"], capture_output=True, timeout=SECONDS, check=False)
        if looked.returncode != 0 or not looked.stdout.endswith(b"\naudit ok 0\n") or looked.stderr:
            raise Failed(f"a look where nothing can be written ends with {looked.returncode}: {looked.stdout} {looked.stderr}")
        started = subprocess.run([*ringd, "--always"], capture_output=True, timeout=SECONDS, check=False)
        if started.returncode != 1 or b"Read-only file system (os error 30)" not in started.stderr:
            raise Failed(f"a start where nothing can be written ends with {started.returncode}: {started.stderr}")
        if os.listdir(os.path.join(self.folder, "ring")) != before:
            raise Failed("a look changed the folder")
        return True

    def listens(self, said: str, host: str) -> None:
        """A start that listens there, and a client who comes to this host."""
        self.settings = os.path.join(self.folder, "ring.toml")
        self.tell(MADE)
        process = self.start(lambda: None, "--listen", said, "--status", str(self.port + NODES))
        try:
            until = time.monotonic() + SECONDS
            while not answers(self.port, host) or not answers(self.port + 1, host):
                if process.poll() is not None or time.monotonic() > until:
                    raise Failed(f"with --listen {said} nobody is answered at {host}")
                time.sleep(0.05)
            with socket.create_connection((host, self.port + NODES), 1.0) as connection:
                connection.sendall(b"GET /live HTTP/1.1\r\n\r\n")
                if not connection.recv(64).startswith(b"HTTP/1.1 200 OK\r\n"):
                    raise Failed(f"with --listen {said} the status port does not answer")
        finally:
            process.kill()
            process.wait()

    def hosts(self) -> list[str]:
        """The words of --listen that this host can have, each tried, and one that none can."""
        tried = []
        for said, host in (("::1", "::1"), ("[::1]", "::1"), ("::", "127.0.0.1"), ("localhost", "localhost")):
            if has(host if said != "::" else "::1"):
                self.listens(said, host)
                tried.append(said)
        ended = subprocess.run([self.ringd, "--settings", self.settings, "--always", "--listen", "nobody.invalid"],
                               capture_output=True, timeout=SECONDS, check=False)
        told = "ringd: no address is known to listen at\nringd: nobody.invalid: no address\n"
        if ended.returncode != 1 or not ended.stderr.decode("ascii", "replace").endswith(told):
            raise Failed(f"where a name has no address it ends with {ended.returncode}: {ended.stderr}")
        return tried


def has(host: str) -> bool:
    """Whether this host can be listened at so."""
    try:
        with socket.create_server((host, 0), family=socket.AF_INET6 if ":" in host else socket.AF_INET):
            return True
    except OSError:
        return False


def answers(port: int, host: str = "127.0.0.1") -> bool:
    """Whether a session at the port is answered."""
    try:
        with socket.create_connection((host, port), 1.0) as connection:
            connection.sendall(b"latest red\n")
            return connection.recv(16) == b"none\n"
    except OSError:
        return False


def main() -> int:
    parser = argparse.ArgumentParser(description="Starts a ring with streams closed, and with few descriptors.")
    root = os.path.dirname(os.path.dirname(os.path.abspath(__file__)))
    parser.add_argument("--ringd", default=os.path.join(root, "bin", "ringd"))
    words = parser.parse_args()
    folder = tempfile.mkdtemp(prefix="ringd-starts-")
    try:
        starts = Starts(os.path.abspath(words.ringd), folder)
        for count in range(4):
            for streams in itertools.combinations(range(3), count):
                starts.closed(streams)
        for count in DESCRIPTORS:
            starts.few(count)
        starts.bounded()
        looked = starts.read_only()
        hosts = starts.hosts()
    except (Failed, OSError, subprocess.TimeoutExpired) as fault:
        print(f"starts.py: {fault}", file=sys.stderr)
        return 1
    finally:
        shutil.rmtree(folder)
    print(f"8 starts with and without standard streams, {len(DESCRIPTORS)} with few descriptors, and 5 with too few or "
          "where files may not be so long: as they are to be")
    print("a look at a ring that is read only, as it is to be" if looked else "no look at a ring that is read only: not root")
    print(f"listened at {', '.join(hosts)}, and not where a name has no address")
    return 0


if __name__ == "__main__":
    sys.exit(main())
