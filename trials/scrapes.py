#!/usr/bin/env python3
"""scrapes.py [--ringd PATH] [--silent N] [--works W] [--seconds S] [--half]

Asks the status port of a ring by `ringd` for `/health` once a second, for S seconds, beside N connections that ask nothing. Each of them
is opened anew as soon as it ends, by W processes side by side. It tells how often they were, and how long an answer took.

  --ringd PATH   the server, `bin/ringd` by default.
  --half         each connection sends half a head, and then nothing.

Status 0 where each scrape was answered with 200 and `well` within three seconds; 1 where one was not, or where the server did not do what
is expected of it; 2 where a word is wrong."""

import argparse
import errno
import http.client
import multiprocessing
import os
import resource
import select
import shutil
import socket
import statistics
import subprocess
import sys
import tempfile
import time

from short import Failed, free_ports

MOST = 3.0
SECONDS = 30
HALF = b"GET /health HTTP/1.1\r\nHost: a\r\n"
ENDED = select.EPOLLHUP | select.EPOLLERR | select.EPOLLRDHUP | select.EPOLLIN


class Silent:
    """Connections to a port that ask nothing."""

    def __init__(self, port: int, is_half: bool) -> None:
        self.port, self.is_half = port, is_half
        self.poll = select.epoll()
        self.open: dict[int, socket.socket] = {}
        self.ended = 0

    def add(self) -> None:
        """One more."""
        connection = socket.socket()
        connection.setblocking(False)
        if connection.connect_ex(("127.0.0.1", self.port)) not in (0, errno.EINPROGRESS):
            connection.close()
            return
        self.open[connection.fileno()] = connection
        self.poll.register(connection, select.EPOLLRDHUP | select.EPOLLIN | (select.EPOLLOUT if self.is_half else 0))

    def see(self, number: int, events: int) -> None:
        """Closes the connection where it ended, and else sends half a head."""
        connection = self.open[number]
        try:
            if not events & ENDED:
                connection.send(HALF)
                self.poll.modify(connection, select.EPOLLRDHUP | select.EPOLLIN)
                return
        except OSError:
            pass
        del self.open[number]
        connection.close()
        self.ended += 1

    def run(self, count: int, over: multiprocessing.Event) -> None:
        """So many at each moment, until it is over, or the trial is gone."""
        trial = os.getppid()
        while not over.is_set() and os.getppid() == trial:
            for _ in range(min(count - len(self.open), 100)):
                self.add()
            for number, events in self.poll.poll(0 if len(self.open) < count else 0.1):
                self.see(number, events)


def silent(port: int, is_half: bool, count: int, over: multiprocessing.Event, answers: multiprocessing.Queue) -> None:
    """A process with so many connections. Puts how many of them ended."""
    connections = Silent(port, is_half)
    connections.run(count, over)
    answers.put(connections.ended)


def scrape(port: int) -> float:
    """How long `/health` took."""
    begun = time.monotonic()
    asked = http.client.HTTPConnection("127.0.0.1", port, timeout=MOST)
    try:
        asked.request("GET", "/health")
        answer = asked.getresponse()
        text = answer.read()
    except (OSError, http.client.HTTPException) as fault:
        raise Failed(f"no answer: {fault!r} after {time.monotonic() - begun:.1f} s") from None
    finally:
        asked.close()
    took = time.monotonic() - begun
    if (answer.status, text) != (200, b"well\n"):
        raise Failed(f"another answer: {answer.status} {text!r}")
    if took > MOST:
        raise Failed(f"an answer took {took:.1f} s")
    return took


def measure(words: argparse.Namespace, port: int) -> bool:
    """Scrapes beside silent connections, and prints what was seen. Whether each scrape was answered."""
    over, answers = multiprocessing.Event(), multiprocessing.Queue()
    share = words.silent // words.works
    works = [multiprocessing.Process(target=silent, args=(port, words.half, share, over, answers)) for _ in range(words.works)]
    for work in works:
        work.start()
    times, faults = [], 0
    begun = time.monotonic()
    try:
        for second in range(1, words.seconds + 1):
            time.sleep(max(0.0, begun + second - time.monotonic()))
            try:
                times.append(scrape(port))
            except Failed as fault:
                faults += 1
                print(f"scrapes.py: after {second} s: {fault}", file=sys.stderr)
    finally:
        over.set()
        ended = sum(answers.get() for _ in works)
        for work in works:
            work.join()
    kind = "with half a head" if words.half else "silent"
    print(f"{words.seconds} scrapes beside {share * words.works} connections {kind}, of which {ended} ended and were opened anew")
    took = f" within {1000 * max(times):.0f} ms, the median {1000 * statistics.median(times):.1f} ms" if times else ""
    print(f"{len(times)} were answered{took}; {faults} were not")
    return faults == 0


def serve(words: argparse.Namespace, folder: str) -> bool:
    """Runs a server in the folder, and measures it."""
    port = free_ports(3)
    settings = os.path.join(folder, "settings.toml")
    with open(settings, "w", encoding="utf-8") as file:
        file.write(f'nodes = 2\ndir = "{folder}"\nport = {port + 1}\n')
    command = [words.ringd, "--settings", settings, "--always", "--status", str(port)]
    with subprocess.Popen(command, stdout=subprocess.PIPE, text=True) as process:
        try:
            while "serving" not in (line := process.stdout.readline()):
                if not line:
                    raise Failed("ringd ended before it served")
            scrape(port)
            return measure(words, port)
        finally:
            process.kill()


def main() -> int:
    parser = argparse.ArgumentParser(usage=__doc__.split("\n\n")[0], add_help=True)
    parser.add_argument("--ringd", default="bin/ringd")
    parser.add_argument("--half", action="store_true")
    for name, default, least, most in (("silent", 10_000, 1, 25_000), ("works", 2, 1, 16), ("seconds", 60, 1, 3_600)):
        parser.add_argument(f"--{name}", type=int, default=default, choices=range(least, most + 1), metavar=f"{least}..{most}")
    words = parser.parse_args()
    most = resource.getrlimit(resource.RLIMIT_NOFILE)[1]
    if most < words.silent // words.works + 100:
        parser.error(f"a process may open {most} files here, too few for so many connections")
    resource.setrlimit(resource.RLIMIT_NOFILE, (most, most))
    folder = tempfile.mkdtemp(prefix="scrapes-")
    try:
        return 0 if serve(words, folder) else 1
    except (Failed, OSError) as fault:
        print(f"scrapes.py: {fault}", file=sys.stderr)
        return 1
    finally:
        shutil.rmtree(folder, ignore_errors=True)


if __name__ == "__main__":
    sys.exit(main())
