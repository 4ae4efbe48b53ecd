"""A copy of a ring's folder, while the ring is served or stopped."""
import os
import pathlib
import random
import re
import shutil
import subprocess
import tempfile
import time

from .errors import CinowetaError

# A copy under load is of several moments, and what it has of its nodes may not fit: so often it is begun anew.
TRIES = 10
# So long a try waits behind one that failed, in seconds: any part of it.
BREAK = 0.2
MADE = "ring.made"
# Not there where an earlier ringd made the ring.
IDENTITY = "ring.id"
NODE = re.compile(r"node-([1-9]\d*)\.crj")


class NoCopy(CinowetaError):
    """No copy was found well in all tries: with what `ringd --check` said of the last one."""


def nodes(folder: pathlib.Path) -> int:
    """How many nodes the ring of a folder has. `ValueError` where it is none, or not all were made."""
    found = {int(match[1]) for path in folder.iterdir() if (match := NODE.fullmatch(path.name))}
    if not (folder / MADE).exists() or len(found) < 2 or found != {*range(1, len(found) + 1)}:
        raise ValueError(f"{folder}: no folder of a ring: {MADE} and the files of all nodes have to be there")
    return len(found)


def backup(folder: str, to: str, ringd: str = "ringd") -> tuple[list[str], int]:
    """Copies a ring's folder to `to`, which must not be there, has `ringd --check` look at the copy, and begins anew
    where that is not well. What it printed of the nodes, and the tries that it took. The copy holds all that any client
    was answered before this began. `NoCopy` where no try came to be well, which leaves nothing."""
    source, target = pathlib.Path(folder), pathlib.Path(os.path.abspath(to))
    if target.exists():
        raise FileExistsError(f"{to}: is there already")
    if shutil.which(ringd) is None:
        raise FileNotFoundError(f"{ringd}: no such program")
    count = nodes(source)
    told = ""
    for number in range(1, TRIES + 1):
        made = tempfile.mkdtemp(prefix=".backup-", dir=target.parent)
        try:
            copy(source, pathlib.Path(made), count)
            is_well, told = check(ringd, pathlib.Path(made), count)
            if is_well:
                os.rename(made, target)
                sync(target.parent)
                return [line for line in told.splitlines() if line.startswith(("node ", "audit ", "dropped "))], number
        finally:
            shutil.rmtree(made, ignore_errors=True)
        time.sleep(random.uniform(0.0, BREAK))
    raise NoCopy(f"{TRIES} tries of a copy were not well; of the last one ringd said: {told.strip()}")


def copy(source: pathlib.Path, to: pathlib.Path, count: int) -> None:
    """The files of all nodes, read as close to each other as can be, and then written and synced, with the identity."""
    names = [f"node-{number}.crj" for number in range(1, count + 1)]
    names += [IDENTITY] if (source / IDENTITY).exists() else []
    for name, content in [(name, (source / name).read_bytes()) for name in names] + [(MADE, b"")]:
        with open(to / name, "xb") as file:
            os.fchmod(file.fileno(), 0o600)
            file.write(content)
            file.flush()
            os.fsync(file.fileno())
    sync(to)


def sync(folder: pathlib.Path) -> None:
    opened = os.open(folder, os.O_RDONLY)
    try:
        os.fsync(opened)
    finally:
        os.close(opened)


def check(ringd: str, folder: pathlib.Path, count: int) -> tuple[bool, str]:
    """Whether a look at the folder ends well, and what it says. A look has no port, whatever the settings say."""
    settings = f'nodes = {count}\ndir = "{folder.name}"\nport = 1\n'
    program = shutil.which(ringd) or ringd
    ended = subprocess.run([os.path.abspath(program), "--check"], input=settings, cwd=folder.parent, text=True,
                           stdout=subprocess.PIPE, stderr=subprocess.STDOUT, check=False)
    return ended.returncode == 0, ended.stdout
