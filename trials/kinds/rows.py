"""The rows of the gate, as cases to begin with: what is asked in them, and not what it brings."""
import functools
import pathlib
import re

ROOT = pathlib.Path(__file__).resolve().parents[2]
FOLDERS = {"console": ROOT / "tests" / "rows", "session": ROOT / "crates" / "rows" / "data"}
MARK = re.compile(rb"! (?:sends|repeats (\d+))(?: (.*))?")


@functools.cache
def rows_of(kind: str) -> list[list[bytes]]:
    """The lines of each row of this kind, without comments."""
    text = (FOLDERS[kind] / f"{kind}.rows").read_bytes()
    rows = [[line for line in row.split(b"\n") if line and not line.startswith((b"  ", b"#"))] for row in text.split(b"\n\n")]
    return [row for row in rows if row]


def scripts() -> list[list[bytes]]:
    """Scripts for ringctl, line by line."""
    return [[line + b"\n" for line in row] for row in rows_of("console")]


@functools.cache
def sessions() -> list[list[bytes]]:
    """Sessions, line by line. Where a row has several, they are one."""
    return [re.findall(rb"[^\n]*\n|[^\n]+", b"".join(map(sent, row))) for row in rows_of("session")]


def sent(line: bytes) -> bytes:
    """What a client sends for a line of a row: nothing for a mark that is the player's alone, or is refused."""
    if not line.startswith(b"! "):
        return line + b"\n"
    mark = MARK.fullmatch(line)
    try:
        return (mark[2] or b"").decode("unicode_escape").encode("latin-1") * int(mark[1] or 1) if mark else b""
    except UnicodeDecodeError:
        return b""
