"""What a start does before it serves, with the nodes that it finds and with those that it makes."""

import fcntl
import os
import pathlib
import subprocess
import unittest

import journals
from programs import PATIENCE, RefusedTest, Ring, RingTest
from refuser import Refusal

HELD = "ringd: node 1 holds what an earlier start wrote\n"
CAPACITY = 4_096


def full_but_for(text: str) -> tuple[int, int]:
    """The ends of a pipe that takes this text, and no byte behind it."""
    page = os.sysconf("SC_PAGE_SIZE")
    read, write = os.pipe()
    # F_SETPIPE_SZ, which Python has a name for from 3.10 on.
    assert fcntl.fcntl(write, 1031, page) == page
    os.set_blocking(write, False)
    os.write(write, bytes(page - len(text)))
    return read, write


def stood(ring: Ring, stands: int) -> None:
    """Node 1 stood for so many terms of `red`, and nobody heard of it."""
    journal = journals.of_stands(1, ring.nodes, ring.capacity, stands)
    pathlib.Path(ring.dir, "node-1.crj").write_bytes(journal)


class StartsTest(RingTest):
    def test_the_window_of_a_start_goes_first(self) -> None:
        """Right at a start a Stand is elected, behind 300 of before."""
        with self.serves("--serve", "1") as ring:
            ring.kill()
            stood(ring, 300)
            ring.start()
            self.assertEqual("stood", ring.asks(1, "stand red 301 10"))
            with ring.client(3) as client:
                self.assertTrue(client.at_last("latest red", "term 301 leader 1 10"))
            self.finish(ring, 2)

    def test_a_node_whose_snapshot_does_not_fit(self) -> None:
        """152 Stands that nobody heard of take 3,040 bytes, and their snapshot 4,142. So no Stand has room, not even one that was made."""
        with self.serves("--serve", "1", nodes=2, capacity=CAPACITY, err=None) as ring:
            ring.kill()
            for name in os.listdir(ring.dir):
                os.remove(os.path.join(ring.dir, name))
            stood(ring, 152)
            ring.start()
            self.assertEqual("no 7 full", ring.asks(1, "stand red 152 10"))
            self.assertEqual("none", ring.asks(2, "who red 1000"))
            # Behind it stands which node is full, and well again, as messages come.
            self.assertTrue(ring.told().startswith(HELD), ring.told())

    def untold(self, ring: Ring) -> str:
        """What a start tells on standard error whose standard output takes all but the line `serving`."""
        text = f"nodes 3\ndir {ring.dir}\nport {ring.port}\ncapacity {ring.capacity}\n"
        read, write = full_but_for(text)
        with os.fdopen(read, "rb") as out:
            with os.fdopen(write, "wb") as full:
                ended = subprocess.run(ring.command("--always", "--doors", "4"), stdin=subprocess.DEVNULL, stdout=full, stderr=subprocess.PIPE,
                                       timeout=PATIENCE, check=False)
            self.assertTrue(out.read().endswith(text.encode()))
        self.assertEqual(1, ended.returncode)
        return ended.stderr.decode()

    def test_a_start_that_is_not_told(self) -> None:
        """What it made is gone."""
        ring = Ring()
        self.addCleanup(ring.remove)
        ring.hold_ports()
        told = self.untold(ring)
        self.assertEqual(("ringd: output cannot be written\n", []), (told, os.listdir(ring.dir)))


class RefusedStartsTest(RefusedTest):
    def test_a_device_that_fails_in_the_checkpoint_of_a_start(self) -> None:
        """Each call of the device that opens a node that stood before, two syncs, and each of the six of its checkpoint ends the start.
        What it stood for is still there."""
        with self.serves("--serve", "1", nodes=2, capacity=CAPACITY) as ring:
            ring.kill()
            stood(ring, 2)
            refuser = self.refuser()
            for at, call in enumerate(("sync", "sync", "write", "sync", "write", "sync", "write", "sync"), 1):
                with self.subTest(at):
                    ring.environment = refuser.environment(Refusal("pwrite fdatasync", at, ending="/node-1.crj"))
                    ring.start()
                    told = f"ringd: node 1: device 1\nringd: {ring.dir}/node-1.crj: {call}: Input/output error (os error 5)\n"
                    self.assertEqual((1, told), (ring.end(), ring.told()))
            ring.environment = {}
            ring.start()
            self.assertEqual("no 3 already 10", ring.asks(1, "stand red 2 11"))
            self.finish(ring, 2)


if __name__ == "__main__":
    unittest.main()
