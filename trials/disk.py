"""A disk that refuses to write a page, and of which only what it has outlives the power."""
import contextlib
import fcntl
import os
import shutil
import struct
import subprocess
import time

PAGE = 4096
IMAGE = 16 << 20
FIBMAP = 1


def run(*words: str) -> None:
    """Runs a program of the system."""
    subprocess.run(words, check=True, stdout=subprocess.DEVNULL)


class Disk:
    """An ext4 on an image, mounted at the folder. The image lies on a tmpfs with no room beside it."""

    def __init__(self, folder: str, at: str) -> None:
        self.shm, self.at = os.path.join(folder, "shm"), at
        self.image, self.beside = os.path.join(self.shm, "image"), os.path.join(self.shm, "beside")
        self.copy = os.path.join(folder, "copy")
        self.taken = (0, b"")
        os.mkdir(self.shm)
        try:
            self.make()
        except BaseException:
            self.close()
            raise

    def make(self) -> None:
        run("mount", "-t", "tmpfs", "-o", f"size={IMAGE}", "tmpfs", self.shm)
        with open(self.image, "wb") as file:
            file.truncate(IMAGE)
        run("mkfs.ext4", "-q", "-b", str(PAGE), "-E", "nodiscard,lazy_itable_init=0,lazy_journal_init=0", self.image)
        # Each page of it takes its room now.
        with open(self.image, "r+b") as file:
            data = file.read()
            file.seek(0)
            file.write(data)
        self.mount(self.image)

    def mount(self, image: str) -> None:
        run("mount", "-o", "loop,errors=continue", image, self.at)

    def block(self, file: str, page: int) -> int:
        """The place on the disk of a page of a file that is written out."""
        with open(file, "rb") as opened:
            return struct.unpack("i", fcntl.ioctl(opened, FIBMAP, struct.pack("i", page)))[0]

    def take_away(self, block: int) -> None:
        with open(self.image, "rb") as file:
            file.seek(block * PAGE)
            self.taken = (block, file.read(PAGE))
        run("fallocate", "--punch-hole", "--offset", str(block * PAGE), "--length", str(PAGE), self.image)
        with open(self.beside, "wb", buffering=0) as file, contextlib.suppress(OSError):
            while True:
                file.write(bytes(PAGE))

    def give_back(self) -> None:
        os.remove(self.beside)
        block, data = self.taken
        with open(self.image, "r+b") as file:
            file.seek(block * PAGE)
            file.write(data)

    def keep(self, at: str) -> None:
        """Copies what the disk has, and nothing of what only the memory has."""
        shutil.copyfile(self.image, at)

    def power_goes(self, kept: str | None = None) -> None:
        """The folder has what the disk had, when this was kept or now."""
        shutil.copyfile(kept or self.image, self.copy + ".new")
        run("umount", self.at)
        os.replace(self.copy + ".new", self.copy)
        self.mount(self.copy)

    def close(self) -> None:
        """Takes the mounts away. A loop device may hold its image for a moment longer."""
        for place in (self.at, self.shm):
            end = time.monotonic() + 10.0
            while os.path.ismount(place) and time.monotonic() < end:
                if subprocess.run(["umount", place], check=False, stderr=subprocess.DEVNULL).returncode:
                    time.sleep(0.1)
