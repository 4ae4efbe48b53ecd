"""Processes of this machine."""

import pathlib


def is_there(number: int) -> bool:
    """Whether such a process runs. One that ended and was not waited for does not."""
    try:
        return pathlib.Path(f"/proc/{number}/stat").read_text("utf-8").rpartition(")")[2].split()[0] not in "ZX"
    except FileNotFoundError:
        return False
