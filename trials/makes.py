#!/usr/bin/env python3
"""Looks at the system calls of `ringd --make`, and of a start that serves, of which one more is refused each time.

makes.py [--ringd PATH]

PATH is a built ringd, bin/ringd where none is named. It takes strace. Again and again a ring is made in an empty folder,
by `--make`, and by a start that is killed once it serves, while each sync, rename and write is refused in turn: once, or each one from then on. Its calls are held to the order that
syncs.py tells of. Where it was refused, with one such call nothing is left, for good, and with more of them what is left
is gone on from. Where it was not, all names are stable at its end.

A line of each is `makes M refused R, not as they should be: N`, `starts M ..`, behind the first that is not. Status 1 where
there is one, or none was refused; 2 for other arguments.
"""
import os
import pathlib
import shutil
import signal
import subprocess
import sys
import tempfile

HERE = os.path.dirname(os.path.abspath(__file__))
sys.path.insert(0, HERE)
from kill import PATIENCE
from short import free_ports
from syncs import CALLS, Start, calls, named

NODES = 2
# What is in a folder then.
MADE = ["node-1.crj", "node-2.crj", "ring.id", "ring.made"]
# What a disk does with a sync is not looked at, so none is waited for.
MEMORY = "/dev/shm"
# Which calls are refused in turn, and how many of each at most.
REFUSED, MOST = ("fsync", "fdatasync", "rename", "pwrite64"), 100


class Makes:
    """`ringd --make` in an empty folder, of which calls are refused, or a start that serves."""

    def __init__(self, ringd: str, folder: str, serves: bool) -> None:
        self.ringd, self.folder, self.serves = ringd, os.path.join(folder, "made"), serves
        self.words = ["--serve", "1"] if serves else ["--make"]
        self.log, self.settings = os.path.join(folder, "makes"), os.path.join(folder, "makes.toml")
        self.count = self.refused = self.faults = 0
        pathlib.Path(self.settings).write_text(f'nodes = {NODES}\ndir = "{self.folder}"\nport = {free_ports(NODES)}\ncapacity = 4096\n', "ascii")

    def fault(self, text: str) -> None:
        if not self.faults:
            print(f"{self.words[0]}: {text}")
        self.faults += 1

    def make(self, inject: list[str]) -> tuple[int, Start]:
        """Runs it once: its status, and what was seen of it."""
        words = ["strace", "-f", "-yy", "-x", "-s", "65536", "-o", self.log, "-e", f"trace={CALLS}", *inject]
        words += [self.ringd, "--settings", self.settings, *self.words]
        status = self.ended(words)
        seen = Start(self.folder, 0)
        with open(self.log, encoding="ascii") as lines:
            for call in calls(list(lines)):
                seen.see(call)
        self.count += 1
        return status, seen

    @staticmethod
    def ended(words: list[str]) -> int:
        """The status that it ends with, or 0 where it serves: then it is killed."""
        with subprocess.Popen(words, stdout=subprocess.PIPE, stderr=subprocess.DEVNULL, start_new_session=True) as process:
            assert process.stdout
            if any(line == b"serving\n" for line in process.stdout):
                os.killpg(process.pid, signal.SIGKILL)
                process.wait(PATIENCE)
                return 0
            return process.wait(PATIENCE)

    def refuse(self, call: str, when: str) -> bool:
        """Has calls refused in an empty folder. Whether it came so far."""
        os.mkdir(self.folder)
        what = f"{call} {when} is refused"
        status, seen = self.make(["-e", f"inject={call}:error=EIO:when={when}"])
        left = sorted(os.listdir(self.folder))
        for text in seen.texts.values():
            self.fault(f"{what}: {text}")
        if status == 0 and (seen.names.unstable or left != MADE):
            self.fault(f"{what}, and behind it not all names are stable")
        if status == 1:
            self.refused += 1
            # Where more are refused than one, taking back ends with the first of them.
            if left and when[-1] != "+":
                self.fault(f"{what}, and {' '.join(left)} is left")
            elif not left and when[-1] != "+" and seen.names.unstable:
                self.fault(f"{what}, and what went is not gone for good")
            if self.make([])[0] != 0:
                self.fault(f"{what}, and the next one is refused")
        shutil.rmtree(self.folder)
        return status == 1

    def run(self) -> bool:
        """Whether all was as it should be, and some was refused."""
        for call in REFUSED:
            for kind in ("", "+"):
                for turn in range(1, MOST):
                    if not self.refuse(call, f"{turn}{kind}"):
                        break
        kind = "starts" if self.serves else "makes"
        print(f"{kind} {self.count} refused {self.refused}, not as they should be: {self.faults}")
        return not self.faults and bool(self.refused)


def main() -> int:
    ringd = named("Looks whether ringd --make does what it does in its order.")
    folder = tempfile.mkdtemp(prefix="ringd-makes-", dir=MEMORY if os.path.isdir(MEMORY) else None)
    try:
        are_right = [Makes(ringd, folder, serves).run() for serves in (False, True)]
        return 0 if all(are_right) else 1
    finally:
        shutil.rmtree(folder)


if __name__ == "__main__":
    sys.exit(main())
