"""Calls of a program that fail, or begin late, and a list of them, by refuse.c, which is loaded before the C library.

It is compiled by the toolchain's clang, which stands beside `rt`, or by cc, clang or gcc."""
import errno
import os
import pathlib
import shutil
import struct
import subprocess
from typing import NamedTuple

HERE = os.path.dirname(os.path.abspath(__file__))
NAMES = ("memory", "pwrite", "fdatasync", "fsync", "ftruncate", "rename", "openat", "pread", "unlink")
# What a journal's device is asked for.
DEVICE = "pread pwrite fdatasync"
# The file of orders: the names, the errno, for good, the pause; the call that is refused, how many were made, and refused; the path's end.
ORDERS = struct.Struct("=4I3Q96s")
AT, COUNTS = 16, struct.Struct("=2Q")


class Refusal(NamedTuple):
    """Call number `at` of these names, on files whose path ends in `ending`, is refused, counted from 1, or none where it is 0: as this errno,
    or 0 for a write of one byte. With a `pause` it begins so many seconds later instead. `for_good` all later ones are too."""
    name: str = "memory"
    at: int = 0
    way: int = errno.EIO
    for_good: bool = False
    pause: float = 0.0
    ending: str = ""


class NoCompiler(Exception):
    """Nothing here compiles C."""


def compilers() -> list[list[str]]:
    """Those that are here, the toolchain's first."""
    found = [[path] for name in ("cc", "clang", "gcc") if (path := shutil.which(name))]
    if rt := shutil.which("rt"):
        folder = pathlib.Path(rt).resolve().parent.parent / "toolchain" / "bin"
        if os.access(folder / "clang", os.X_OK):
            found.insert(0, [str(folder / "clang"), f"--ld-path={folder / 'ld.lld'}"])
    return found


def build(folder: str) -> str:
    """The path of the library, which is made in the folder. Raises `NoCompiler`."""
    library = os.path.join(folder, "refuse.so")
    for compiler in compilers():
        words = [*compiler, "-O2", "-ffreestanding", "-nostdlib", "-shared", "-fPIC", os.path.join(HERE, "refuse.c"), "-o", library]
        if subprocess.run(words, stdin=subprocess.DEVNULL, capture_output=True, timeout=60, check=False).returncode == 0:
            return library
    raise NoCompiler("no compiler of C, neither the toolchain's clang nor cc, clang or gcc")


class Refuser:
    """The library, and the orders of one program, in a folder."""

    def __init__(self, folder: str, library: str | None = None) -> None:
        self.library = library or build(folder)
        self.orders, self.list = os.path.join(folder, "orders"), os.path.join(folder, "calls")

    def environment(self, refusal: Refusal = Refusal(), is_listed: bool = False) -> dict[str, str]:
        """Of a program of which this call is refused, and whose calls are listed."""
        pathlib.Path(self.orders).write_bytes(bytes(ORDERS.size))
        self.order(refusal)
        listed = {"REFUSE_LIST": self.list} if is_listed else {}
        if is_listed:
            pathlib.Path(self.list).write_bytes(b"")
        return {**os.environ, "LD_PRELOAD": self.library, "REFUSE": self.orders, **listed}

    def order(self, refusal: Refusal) -> None:
        """This call, counted from now on, is refused."""
        self.obey()
        names = sum(1 << NAMES.index(name) for name in refusal.name.split())
        packed = ORDERS.pack(names, refusal.way, refusal.for_good, int(refusal.pause * 1000), 0, 0, 0, refusal.ending.encode())
        with open(self.orders, "r+b", buffering=0) as file:
            file.write(packed)
        self.set(refusal.at)

    def set(self, at: int) -> None:
        with open(self.orders, "r+b", buffering=0) as file:
            file.seek(AT)
            file.write(struct.pack("=Q", at))

    def obey(self) -> None:
        """No call is refused from now on."""
        self.set(0)

    def counts(self) -> tuple[int, int]:
        """How many of these calls were made, and how many of them refused."""
        with open(self.orders, "rb") as file:
            file.seek(AT + 8)
            made, refused = COUNTS.unpack(file.read(COUNTS.size))
            return made, refused

    def refused(self) -> int:
        """How many calls were refused."""
        return self.counts()[1]

    def calls(self) -> list[str]:
        """What is listed: `NAME PATH`, and behind it `refused` where it was."""
        return pathlib.Path(self.list).read_text(encoding="utf-8").splitlines()
