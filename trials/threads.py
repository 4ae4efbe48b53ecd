#!/usr/bin/env python3
"""threads.py [--ringd PATH] [--nodes N] [--doors D] [--user ID]

Starts a ring by `ringd` again and again, each time with one thread more that the system grants, from none on, until it serves three
times in a row. Each start comes to one of two ends within 30 seconds: it is over with status 1 and `ringd: no thread can be started`;
or it serves, and then all D doors of each node answer side by side.

  --ringd PATH   the server, `bin/ringd` by default.
  --user ID      the number of a user with no other process, whose threads are limited; 54321 by default. It takes root to be that user.

Status 0 where each start ended so; 1 where one did not; 2 where a word is wrong, or the caller is not root."""

import argparse
import os
import resource
import shutil
import socket
import subprocess
import sys
import tempfile
import time

from short import Failed, free_ports

SECONDS = 30
REFUSED = "ringd: no thread can be started\n"


def limited(user: int, threads: int):
    """What a child does before it becomes the server: it may have so many threads beside its first one."""
    def limit() -> None:
        resource.setrlimit(resource.RLIMIT_NPROC, (threads + 1, threads + 1))
        os.setgid(user)
        os.setuid(user)
    return limit


def answers(port: int, doors: int) -> bool:
    """Whether so many sessions at the port are answered side by side."""
    with_doors = [socket.create_connection(("127.0.0.1", port), SECONDS) for _ in range(doors)]
    try:
        for connection in with_doors:
            connection.sendall(b"latest red\n")
        return all(connection.recv(16) == b"none\n" for connection in with_doors)
    except OSError:
        return False
    finally:
        for connection in with_doors:
            connection.close()


def is_served(process: subprocess.Popen) -> bool:
    """Whether the server says that it serves; not where it ends before."""
    os.set_blocking(process.stdout.fileno(), False)
    said, until = b"", time.monotonic() + SECONDS
    while time.monotonic() < until:
        said += process.stdout.read() or b""
        if b"serving\n" in said:
            return True
        if process.poll() is not None:
            return False
        time.sleep(0.01)
    raise Failed(f"ringd neither serves nor ends within {SECONDS} s")


def starts(words: argparse.Namespace, folder: str, port: int, threads: int) -> bool:
    """Whether a start with so many threads serves. It is held to what it says."""
    command = [os.path.join(folder, "ringd"), "--settings", os.path.join(folder, "settings.toml"), "--always", "--doors", str(words.doors)]
    with subprocess.Popen(command, stdout=subprocess.PIPE, stderr=subprocess.PIPE, cwd=folder,
                          preexec_fn=limited(words.user, threads)) as process:
        try:
            if is_served(process):
                if not all(answers(port + node, words.doors) for node in range(words.nodes)):
                    raise Failed(f"with {threads} threads it serves, and a door does not answer")
                return True
            told = process.stderr.read().decode("ascii", "replace")
            if process.returncode != 1 or told != REFUSED:
                raise Failed(f"with {threads} threads it ends with {process.returncode} and says {told!r}")
            return False
        finally:
            process.kill()


def walk(words: argparse.Namespace, folder: str) -> int:
    """The least number of threads with which the ring serves, as three starts in a row do."""
    port = free_ports(words.nodes)
    with open(os.path.join(folder, "settings.toml"), "w", encoding="utf-8") as file:
        file.write(f'nodes = {words.nodes}\ndir = "{folder}"\nport = {port}\n')
    # The user may not reach where the program stands.
    shutil.copy(words.ringd, os.path.join(folder, "ringd"))
    os.chown(folder, words.user, words.user)
    threads, served = 0, 0
    while served < 3:
        if starts(words, folder, port, threads):
            served += 1
        elif served:
            raise Failed(f"with {threads} threads it does not serve, and with fewer it did")
        threads += 1
    return threads - 3


def main() -> int:
    parser = argparse.ArgumentParser(usage=__doc__.split("\n\n")[0], add_help=True)
    parser.add_argument("--ringd", default="bin/ringd")
    for name, default, least, most in (("nodes", 2, 2, 16), ("doors", 2, 1, 32), ("user", 54321, 1, 2 ** 31)):
        parser.add_argument(f"--{name}", type=int, default=default, metavar=f"{least}..{most}")
    words = parser.parse_args()
    if os.geteuid() != 0:
        parser.error("it takes root to limit the threads of a user")
    folder = tempfile.mkdtemp(prefix="threads-")
    try:
        least = walk(words, folder)
        print(f"{words.nodes} nodes of {words.doors} doors: {least + 3} starts, {least} of them refused for want of a thread")
        return 0
    except (Failed, OSError) as fault:
        print(f"threads.py: {fault}", file=sys.stderr)
        return 1
    finally:
        shutil.rmtree(folder, ignore_errors=True)


if __name__ == "__main__":
    sys.exit(main())
