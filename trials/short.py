#!/usr/bin/env python3
"""short.py [--ringd PATH] [--folder PATH] [--nodes N] [--doors D] [--clients C] [--seconds S] [--stands K] [--sync-ms M]

Loads a ring by `ringd` with sessions of one line each, by C clients at every node side by side, for S seconds: Stands, until each node
has K of them, and then questions. Tells what memory the server took at most, and how long an election takes: at rest before, right
behind the load, and once the ring has come to rest again. A session's end is where a node may send messages again, so such sessions
would show letterboxes that grow, and elections that wait behind what lies in them.

  --ringd PATH   the server, `bin/ringd` by default.
  --folder PATH  where the files are made, the current folder by default.
  --sync-ms M    holds each sync of the server back for so many milliseconds, by strace, which must be there then.

Status 0 where the memory stayed under 64 MiB, and the elections behind the load took at most twice as long as those before (medians
of 9, where a difference of 20 ms is none); 1 where not, or where the server did not do what is expected of it; 2 where a word is wrong."""

import argparse
import multiprocessing
import os
import re
import shutil
import socket
import statistics
import subprocess
import sys
import tempfile
import threading
import time

sys.path.append(os.path.join(os.path.dirname(os.path.abspath(__file__)), "..", "tests"))
from ports import free_ports

ELECTIONS = 9
SECONDS = 60
MOST = 64
SLACK = 0.02


class Failed(Exception):
    """The server did not do what is expected of it."""


def exchange(port: int, lines: str) -> str:
    """A session of these lines: all that is answered."""
    with socket.create_connection(("127.0.0.1", port), SECONDS) as connection:
        connection.sendall(lines.encode() + b"bye\n")
        answer = b""
        while part := connection.recv(4096):
            answer += part
    return answer.decode("ascii", "replace")


def client(port: int, group: str, stands: int, until: float, told: list[int]) -> None:
    """Stands for one term after the other, a session each, and then asks. Counts Stands and sessions."""
    while time.monotonic() < until:
        line = f"stand {group} {told[0] + 1} 1\n" if told[0] < stands else f"latest {group}\n"
        try:
            told[0] += exchange(port, line).startswith("stood\n")
            told[1] += 1
        except OSError:
            time.sleep(0.01)


def clients(port: int, node: int, count: int, stands: int, until: float, answers: multiprocessing.Queue) -> None:
    """So many clients of a node, each in a thread and with a group of its own. Puts the counts of Stands and sessions."""
    told = [[0, 0] for _ in range(count)]
    threads = [threading.Thread(target=client, args=(port, f"g{node}-{place}", stands // count, until, told[place]))
               for place in range(count)]
    for thread in threads:
        thread.start()
    for thread in threads:
        thread.join()
    answers.put([sum(counts) for counts in zip(*told)])


def election(port: int, nodes: int, name: str) -> float:
    """How long it takes from a Stand at node 1 until each node names the leader."""
    begun = time.monotonic()
    if exchange(port, f"stand {name} 1 1\n") != "stood\nbye\n":
        raise Failed("an election began with no Stand")
    for node in range(nodes):
        while not exchange(port + node, f"latest {name}\n").startswith("term 1 leader 1 1"):
            if time.monotonic() - begun > SECONDS:
                raise Failed(f"no leader at node {node + 1} within {SECONDS} s")
            time.sleep(0.001)
    return time.monotonic() - begun


def peak(server: int) -> float:
    """The greatest memory of the process, in MiB."""
    with open(f"/proc/{server}/status", encoding="ascii") as file:
        return int(re.search(r"VmHWM:\s+(\d+) kB", file.read()).group(1)) / 1024


def rests(server: int) -> None:
    """Waits until the process has not run for a while."""
    def ticks() -> int:
        with open(f"/proc/{server}/stat", encoding="ascii") as file:
            return sum(map(int, file.read().rpartition(")")[2].split()[11:13]))
    until, last = time.monotonic() + SECONDS, -1
    while last != (now := ticks()):
        if time.monotonic() > until:
            raise Failed(f"the server does not come to rest within {SECONDS} s")
        last = now
        time.sleep(0.5)


def measure(words: argparse.Namespace, server: int, port: int) -> bool:
    """Loads the server, and prints what was seen. Whether it is well."""
    before = [election(port, words.nodes, f"before{place}") for place in range(ELECTIONS)]
    answers: multiprocessing.Queue = multiprocessing.Queue()
    begun = time.monotonic()
    works = [multiprocessing.Process(target=clients, args=(port + node, node + 1, words.clients, words.stands,
                                                           begun + words.seconds, answers)) for node in range(words.nodes)]
    for work in works:
        work.start()
    stood, sessions = (sum(counts) for counts in zip(*(answers.get() for _ in works)))
    for work in works:
        work.join()
    behind = [election(port, words.nodes, f"behind{place}") for place in range(ELECTIONS)]
    rests(server)
    after = [election(port, words.nodes, f"after{place}") for place in range(ELECTIONS)]
    most = peak(server)
    print(f"{sessions} sessions in {words.seconds} s, {stood} of them Stands, memory at most {most:.0f} MiB")
    for name, times in (("before", before), ("right behind", behind), ("at rest again", after)):
        print(f"election {name}: {1000 * statistics.median(times):.0f} ms, the first {1000 * times[0]:.0f} ms")
    is_quick = statistics.median(behind) <= 2 * statistics.median(before) + SLACK
    return most <= MOST and is_quick


def serve(words: argparse.Namespace, folder: str) -> bool:
    """Runs a server in the folder, and measures it."""
    port = free_ports(words.nodes)
    settings = os.path.join(folder, "settings.toml")
    with open(settings, "w", encoding="utf-8") as file:
        file.write(f'nodes = {words.nodes}\ndir = "{folder}"\nport = {port}\ncapacity = 1048576\n')
    command = [words.ringd, "--settings", settings, "--always", "--doors", str(words.doors)]
    if words.sync_ms:
        command = ["strace", "-f", "-qq", "-o", "/dev/null", "-e", "trace=fsync,fdatasync",
                   "-e", f"inject=fsync,fdatasync:delay_exit={1000 * words.sync_ms}", *command]
    with subprocess.Popen(command, stdout=subprocess.PIPE, text=True) as process:
        try:
            while "serving" not in (line := process.stdout.readline()):
                if not line:
                    raise Failed("ringd ended before it served")
            server = process.pid
            if words.sync_ms:
                server = int(subprocess.run(["pgrep", "-P", str(process.pid)], capture_output=True, text=True, check=True).stdout)
            return measure(words, server, port)
        finally:
            if words.sync_ms:
                subprocess.run(["pkill", "-KILL", "-P", str(process.pid)], check=False)
            process.kill()


def main() -> int:
    parser = argparse.ArgumentParser(usage=__doc__.split("\n\n")[0], add_help=True)
    parser.add_argument("--ringd", default="bin/ringd")
    parser.add_argument("--folder", default=".")
    for name, default, least, most in (("nodes", 16, 2, 16), ("doors", 8, 1, 32), ("clients", 8, 1, 64), ("seconds", 10, 1, 60),
                                       ("stands", 200, 1, 990), ("sync-ms", 0, 0, 100)):
        parser.add_argument(f"--{name}", type=int, default=default, choices=range(least, most + 1), metavar=f"{least}..{most}")
    words = parser.parse_args()
    folder = tempfile.mkdtemp(prefix="short-", dir=words.folder)
    try:
        return 0 if serve(words, folder) else 1
    except (Failed, OSError) as fault:
        print(f"short.py: {fault}", file=sys.stderr)
        return 1
    finally:
        shutil.rmtree(folder, ignore_errors=True)


if __name__ == "__main__":
    sys.exit(main())
