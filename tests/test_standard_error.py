"""What `ringd` tells on standard error of all that happens, of a node at its limit, and what stands before each line."""
import os
import pathlib
import re
import socket
import subprocess
import unittest

import journals
from programs import PATIENCE, RINGD, Client, Ring, RingTest

MOST = 1_024
ROOM = 262_144
# A session at one of a node's two doors, which may be closed before or behind another node's lines.
VISITED = r"ringd: node {}: session at door ([01])\n(?:.*\n)*ringd: node {}: session at door \1 ended\n"
TIME = r"20\d\d-[01]\d-[0-3]\dT[0-2]\d:[0-5]\d:[0-5]\dZ"


def stood(ring: Ring) -> None:
    """Node 1 of the ring, which is started again, stood for all the terms of `red` that it may stand for, and nobody heard of it."""
    ring.kill()
    pathlib.Path(ring.dir, "node-1.crj").write_bytes(journals.of_stands(1, ring.nodes, ring.capacity, MOST))
    ring.start()


def count_of(line: str) -> int:
    """How many leaders of `red` the line tells of at node 1, or how many lines were left out."""
    if line.startswith("ringd: node 1: red term "):
        return 1
    left_out = re.fullmatch(r"ringd: (\d+) more are left out", line)
    return int(left_out[1]) if left_out else 0


class StandardErrorTest(RingTest):
    def leads_all(self, client: Client) -> None:
        self.assertTrue(client.at_last("latest red", f"term {MOST} leader 1 10"))

    def test_all_that_happens(self) -> None:
        with self.serves("--serve", "1", "--verbose", nodes=2, err=None) as ring:
            with ring.client() as client:
                self.assertEqual("stood", client.ask("stand red 5 10"))
                self.assertTrue(client.at_last("who red 5", "leader 1 10"))
                self.each(client, ("retire red 5", "retired"), ("bye", "bye"))
            self.assertEqual("none", ring.asks(2, "who blue 1"))
            ring.end()
            told = ring.told()
            for node in (1, 2):
                self.assertRegex(told, VISITED.format(node, node))
            rest = sorted(line for line in told.splitlines() if "session at door" not in line)
            self.assertEqual(["ringd: node 1: red retired below 5", "ringd: node 1: red term 5 leader 1 bid 10"], rest[:2])
            # The other node may hear of it too late.
            self.assertIn(rest[2:], ([], ["ringd: node 2: red term 5 leader 1 bid 10"]))

    def test_a_node_at_its_limit(self) -> None:
        with self.serves("--serve", "2", capacity=ROOM, err="ringd: node 1 at limit\nringd: node 1 well again\n") as ring:
            stood(ring)
            with ring.client() as client:
                self.each(client, ("stand blue 1 10", "no 6 limit"), ("bye", "bye"))
            self.assertTrue(ring.says("ringd: node 1 at limit\n"))
            with ring.client() as client:
                self.leads_all(client)
                self.each(client, (f"retire red {MOST}", "retired"), ("stand blue 1 10", "stood"), ("bye", "bye"))
            for node in (2, 3):
                for _ in range(2):
                    self.assertEqual("none", ring.asks(node, "who blue 7"))

    def test_more_than_is_told(self) -> None:
        """So many leaders become known to each node at once."""
        with self.serves("--serve", "1", "--verbose", capacity=ROOM, err=None) as ring:
            stood(ring)
            for node in range(1, ring.nodes + 1):
                with ring.client(node) as client:
                    self.leads_all(client)
                    self.assertEqual("bye", client.ask("bye"))
            ring.end()
            self.assertGreaterEqual(sum(map(count_of, ring.told().splitlines())), MOST)


class PrefixTest(RingTest):
    """What stands before the lines."""

    def make(self, ring: Ring, status: int) -> list[str]:
        """What standard error has once a ring is made, with the time before each line."""
        ended = subprocess.run(ring.command("--make", "--log", "time"), stdin=subprocess.DEVNULL, capture_output=True, text=True, timeout=PATIENCE,
                               check=False)
        self.assertEqual(status, ended.returncode, ended.stderr)
        return ended.stderr.splitlines()

    def test_lines_with_their_times(self) -> None:
        ring = Ring(nodes=2, capacity=4_096)
        ring.hold_ports()
        try:
            version, identity = self.make(ring, 0)
            self.assertRegex(version, rf"^{TIME} notice ringd: version 0\.1\.0, layout 3$")
            self.assertRegex(identity, rf"^{TIME} notice ringd: the ring is [0-9a-f]{{32}}$")
            path = pathlib.Path(ring.dir, "node-1.crj")
            path.write_bytes(b"")
            unformatted, cause = self.make(ring, 1)
            self.assertRegex(unformatted, rf"^{TIME} error ringd: node 1: unformatted$")
            self.assertRegex(cause, rf"^{TIME} error ringd: {re.escape(str(path))}: invalid data$")
        finally:
            ring.remove()

    def told_to(self, *words: str, is_named: bool = True) -> str:
        """What is told to a socket of standard error, of these wrong words, where systemd names it as its journal or names another one."""
        read, write = socket.socketpair()
        with read, write:
            read.settimeout(PATIENCE)
            named = os.fstat(write.fileno())
            journal = f"{named.st_dev}:{named.st_ino + (not is_named)}"
            ended = subprocess.run([RINGD, *words], stdin=subprocess.DEVNULL, stdout=subprocess.DEVNULL, stderr=write, timeout=PATIENCE, check=False,
                                   env={**os.environ, "JOURNAL_STREAM": journal})
            write.close()
            told = b""
            while part := read.recv(4_096):
                told += part
        self.assertEqual(2, ended.returncode)
        return told.decode()

    def test_wrong_words_have_a_level_in_the_journal(self) -> None:
        told = self.told_to("--nothing")
        self.assertRegex(told, r"^<3>error: ")
        self.assertEqual(told, "<3>" + self.told_to("--nothing", is_named=False))


if __name__ == "__main__":
    unittest.main()
