"""In which order `ringd --make` makes the files of a ring, what it takes back where a call is refused, and what it tells."""
import contextlib
import errno
import itertools
import os
import re
import subprocess
import unittest
from collections.abc import Iterator

from programs import PATIENCE, RefusedTest, Ring
from refuser import Refusal, Refuser

NODES = 2
# The calls that make each node in turn, by `N` for its number; `.` is the folder.
MAKES_NODE = """unlink node-N.crj.new
openat node-N.crj.new
fsync node-N.crj.new
openat .
fsync .
pwrite node-N.crj.new
fdatasync node-N.crj.new
rename node-N.crj.new
"""
SIGNS = """openat ring.id
openat /dev/urandom
openat ring.id
fsync ring.id
"""
TAKES_BACK = """unlink node-1.crj.new
unlink node-1.crj
unlink node-2.crj.new
unlink node-2.crj
unlink ring.id
fsync .
"""
MADE = "openat .\n" + MAKES_NODE.replace("N", "1") + MAKES_NODE.replace("N", "2") + SIGNS + "fsync .\nopenat ring.made\nfsync .\nopenat ring.id\n"
# Those of a start on the files that are there, before the first checkpoint.
LOOKS = "openat .\n" + "".join(f"openat {name}\nfdatasync {name}\npread {name}\nfdatasync {name}\n" for name in ("node-1.crj", "node-2.crj"))
FILES = ["node-1.crj", "node-2.crj", "ring.id", "ring.made"]
ANSWERS = {errno.EINVAL: "Invalid argument", errno.EBADF: "Bad file descriptor", errno.EIO: "Input/output error"}


def until(last: str, count: int = 1) -> str:
    """The calls that make a ring, up to this one, which is refused: the first of its kind, or a later one."""
    lines = MADE.splitlines()
    at = [place for place, line in enumerate(lines) if line == last][count - 1]
    return "".join(f"{line}\n" for line in lines[:at]) + f"{last} refused\n"


class FolderTest(RefusedTest):
    @contextlib.contextmanager
    def folder(self) -> Iterator[tuple[Ring, Refuser]]:
        """An empty folder of a ring of two that nobody serves."""
        ring = Ring(nodes=NODES, capacity=4_096)
        ring.hold_ports()
        try:
            yield ring, self.refuser()
        finally:
            ring.remove()

    def make(self, ring: Ring, refuser: Refuser, refusal: Refusal = Refusal()) -> "subprocess.CompletedProcess[str]":
        """Makes the ring, where this call is refused."""
        return subprocess.run(ring.command("--make"), stdin=subprocess.DEVNULL, capture_output=True, text=True, timeout=PATIENCE, check=False,
                              env=refuser.environment(refusal, is_listed=True))

    def calls(self, ring: Ring, refuser: Refuser) -> str:
        """The calls, from that which opens the folder on; equal ones in a row are told once."""
        named = [call.replace(f"{ring.dir}/", "").replace(ring.dir, ".") for call in refuser.calls()]
        return "".join(f"{call}\n" for call, _ in itertools.groupby(named[named.index("openat ."):]))

    def refused(self, ring: Ring, refuser: Refuser, refusal: Refusal, told: str) -> None:
        """It ends with 1, and tells what the system answered of this file."""
        ended = self.make(ring, refuser, refusal)
        path = os.path.normpath(os.path.join(ring.dir, told.partition(": ")[0]))
        number = refusal.way
        answer = f"ringd: {path}: {told.partition(': ')[2]}: {ANSWERS[number]} (os error {number})\n"
        self.assertEqual((1, f"ringd: node 1: device 1\n{answer}"), (ended.returncode, ended.stderr))
        self.assertEqual(1, refuser.refused())

    def taken_back(self, refusal: Refusal, told: str, calls: str) -> None:
        """It is refused so, with these calls, and what was made is gone."""
        with self.folder() as (ring, refuser):
            self.refused(ring, refuser, refusal, told)
            self.assertEqual(calls, self.calls(ring, refuser))
            self.assertEqual([], os.listdir(ring.dir))

    def test_the_calls_that_make_a_ring(self) -> None:
        with self.folder() as (ring, refuser):
            ended = self.make(ring, refuser)
            self.assertEqual((0, ""), (ended.returncode, ended.stderr))
            self.assertEqual(MADE, self.calls(ring, refuser))
            self.assertEqual(FILES, sorted(os.listdir(ring.dir)))
            # What was drawn is told.
            with open(os.path.join(ring.dir, "ring.id"), encoding="ascii") as file:
                identity = file.read()
            self.assertTrue(re.fullmatch(r"[0-9a-f]{32}\n", identity), identity)
            self.assertEqual(f"nodes 2\ndir {ring.dir}\nport {ring.port}\ncapacity 4096\nring {identity}", ended.stdout)

    def test_names_that_are_not_synced(self) -> None:
        """Names that are not on the disk are taken back, and there is no `ring.made`."""
        self.taken_back(Refusal("fsync", 3, errno.EINVAL, ending="/ring"), ".: sync", until("fsync .", 3) + TAKES_BACK)

    def test_an_identity_that_is_not_synced(self) -> None:
        """The identity is on the disk before its name is."""
        self.taken_back(Refusal("fsync", 1, errno.EINVAL, ending="ring.id"), "ring.id: sync", until("fsync ring.id") + TAKES_BACK)

    def test_a_mark_that_is_not_synced(self) -> None:
        """It is gone for good before all else goes."""
        calls = until("fsync .", 4) + "unlink ring.made\nfsync .\n" + TAKES_BACK
        self.taken_back(Refusal("fsync", 4, errno.EIO, ending="/ring"), ".: sync", calls)

    def test_a_new_file_that_is_not_synced(self) -> None:
        """It is synced before all else, and is gone where that is refused."""
        calls = until("fsync node-1.crj.new") + "unlink node-1.crj.new\nfsync .\n"
        self.taken_back(Refusal("fsync", 1, errno.EINVAL, ending="node-1.crj.new"), "node-1.crj.new: sync", calls)

    def test_the_name_of_a_new_file_that_is_not_synced(self) -> None:
        calls = until("fsync .") + "unlink node-1.crj.new\nfsync .\n"
        self.taken_back(Refusal("fsync", 1, errno.EINVAL, ending="/ring"), "node-1.crj.new: sync", calls)

    def test_a_new_file_that_is_not_written(self) -> None:
        """A file that is not formatted is gone."""
        calls = until("pwrite node-1.crj.new") + "unlink node-1.crj.new\nfsync .\n"
        self.taken_back(Refusal("pwrite", 1, errno.EBADF, ending="node-1.crj.new"), "node-1.crj.new: write", calls)

    def test_a_checkpoint_that_is_not_written(self) -> None:
        """It is told of its file, and makes no other."""
        with self.folder() as (ring, refuser):
            self.assertEqual(0, self.make(ring, refuser).returncode)
            self.refused(ring, refuser, Refusal("pwrite", 1, errno.EBADF, ending="node-1.crj"), "node-1.crj: write")
            self.assertEqual(LOOKS + "pwrite node-1.crj refused\nfsync .\n", self.calls(ring, refuser))
            self.assertEqual(FILES, sorted(os.listdir(ring.dir)))


if __name__ == "__main__":
    unittest.main()
