"""What `ringd --status PORT` tells of a ring, over HTTP."""
import contextlib
import io
import json
import re
import time
import urllib.parse
from collections.abc import Iterator
from typing import Any, NamedTuple

from .errors import NoAnswer, WrongRing
from .host import OWN, address, require
from .link import Stop, connect

# More is read of no answer, in bytes.
LONGEST = 1 << 20
LENGTH = re.compile(rb"\r\nContent-Length:[ \t]*(\d{1,9})[ \t]*(?=\r\n|\Z)", re.IGNORECASE)
# What is shown first of a node.
FIRST = ["node", "port", "state"]
# What stands before the number of a refusal.
REFUSALS = "refusals."


def ask(host: str, port: int, path: str, seconds: float, stop: Stop = Stop()) -> tuple[int, str]:
    """The status and the text of an answer, which is waited for until this stops."""
    until, told = time.monotonic() + seconds, b""
    try:
        with connect(require(host), port, seconds) as connection:
            connection.sendall(question(host, port, path))
            # All of it is waited for so long, and not each part.
            while len(told) <= LONGEST and not is_whole(told):
                stop.readable(connection, until - time.monotonic())
                if time.monotonic() > until:
                    raise TimeoutError("timed out")
                part = connection.recv(1 << 16)
                if not part:
                    break
                told += part
        return read(told)
    except (OSError, ValueError) as fault:
        raise NoAnswer(f"{address(host, port)}{path}: {fault or type(fault).__name__}") from None


def question(host: str, port: int, path: str) -> bytes:
    """What asks for this path, so that the connection ends with the answer."""
    return f"GET {path} HTTP/1.1\r\nHost: {address(host, port)}\r\nConnection: close\r\n\r\n".encode()


def is_whole(told: bytes) -> bool:
    """Whether all of an answer came, where it tells how long it is."""
    head, end, body = told.partition(b"\r\n\r\n")
    length = LENGTH.search(head)
    return bool(end) and length is not None and len(body) >= int(length[1])


class Page(io.BytesIO):
    """What was answered over HTTP, as the library reads it from a socket."""

    def makefile(self, _mode: str) -> "Page":
        return self


def read(told: bytes) -> tuple[int, str]:
    """The status and the text of a whole answer; a ValueError where it is none."""
    # Only who asks the status port waits for what this loads, which is more than all else.
    import http.client

    answer = http.client.HTTPResponse(Page(told))  # type: ignore[arg-type]
    try:
        answer.begin()
        return answer.status, answer.read(LONGEST).decode("utf-8", "replace")
    except http.client.HTTPException as fault:
        raise ValueError(f"{fault or type(fault).__name__}") from None


class Sight(NamedTuple):
    """The latest leader of a group, whether who stood so is present or resigned, and what it tells of itself."""
    term: int
    node: int
    bid: int
    is_present: bool
    is_resigned: bool
    text: str


def health(port: int, seconds: float = 5.0, *, host: str = OWN) -> list[str]:
    """A line for each node that is not well, as `node 3 full`; none where all are."""
    return read_health(f"{address(host, port)}/health", *ask(host, port, "/health", seconds))


def read_health(where: str, code: int, text: str) -> list[str]:
    if code not in (200, 503):
        raise WrongRing(f"{where} answers {code}: is it that of ringd --status?")
    # Behind them stands what helps.
    return [line for line in text.splitlines() if line.startswith("node ")] if code == 503 else []


def status(port: int, seconds: float = 5.0, *, host: str = OWN) -> dict[str, Any]:
    """What is told of the ring and of each node."""
    return ask_rows(host, port, "/status", "nodes", seconds)


def leaders(port: int, node: int, seconds: float = 5.0, *, host: str = OWN,
            after: str = "") -> Iterator[tuple[str, int, int, int]]:
    """Each group behind `after` that a node knows a leader of, in order of name, and its latest term, node and bid."""
    while True:
        path = f"/leaders?node={node}" + (f"&after={urllib.parse.quote(after, safe='')}" if after else "")
        told = ask_rows(host, port, path, "leaders", seconds)
        rows: list[Any] = [tuple(row.get(name) for name in ("group", "term", "node", "bid")) for row in told["leaders"]]
        if not all(isinstance(row[0], str) and all(isinstance(number, int) for number in row[1:]) for row in rows):
            raise WrongRing(f"{address(host, port)}{path} tells no leaders")
        yield from rows
        if not rows or not told.get("more"):
            return
        after = rows[-1][0]


def coming(port: int, group: str, above: int, seconds: int, *, host: str = OWN) -> tuple[int, int, int] | None:
    """The term, the node and the bid of the group's latest leader in a term above this one, for which the port waits so many seconds,
    60 at most; None where there was none."""
    path = coming_path(group, above, seconds)
    told = read_leader(f"{address(host, port)}{path}", *ask(host, port, path, seconds + 5.0), none=204)
    return None if told is None else (told.term, told.node, told.bid)


def coming_path(group: str, above: int, seconds: int) -> str:
    return f"/leaders/{group}?above={above}&wait={seconds}"


def leader(port: int, group: str, node: int, seconds: float = 5.0, *, host: str = OWN) -> tuple[int, int, int, bool] | None:
    """The term, the node and the bid of the group's latest leader, and whether who stood so is present, by what this node knows;
    None where it knows none. Nothing rests on presence: docs/OPERATING.md says what it tells."""
    path = leader_path(group, node)
    told = read_leader(f"{address(host, port)}{path}", *ask(host, port, path, seconds), none=404)
    return None if told is None else (told.term, told.node, told.bid, told.is_present)


def leader_path(group: str, node: int) -> str:
    return f"/leaders/{group}?node={node}"


def held_path(group: str, node: int, term: int, seconds: int) -> str:
    return f"/leaders/{group}?node={node}&held={term}&wait={seconds}"


def read_leader(where: str, code: int, text: str, none: int) -> "Sight | None":
    """A leader and whether it is present; None where the status of the answer says that there is none. `NoAnswer` also where
    no place is free for who waits, or memory is wanting."""
    if code == none:
        return None
    if code == 503:
        raise NoAnswer(f"{where}: 503")
    try:
        told = json.loads(text)
        row, is_present = told["leader"], told["present"]
        # An earlier ringd tells neither of these.
        is_resigned, said = told.get("resigned", False), told.get("text", "")
        term, node, bid = row["term"], row["node"], row["bid"]
    except (ValueError, LookupError, TypeError):
        term = node = bid = is_present = None
    if code != 200 or not all(isinstance(number, int) for number in (term, node, bid)) or not isinstance(is_present, bool):
        raise WrongRing(f"{where} answers {code}: is it that of ringd --status?")
    return Sight(term, node, bid, is_present, is_resigned is True, str(said))


def ask_rows(host: str, port: int, path: str, name: str, seconds: float) -> dict[str, Any]:
    """An answer in JSON that has a list of objects of this name."""
    code, text = ask(host, port, path, seconds)
    told: Any = None
    with contextlib.suppress(ValueError):
        told = json.loads(text)
    rows = told.get(name) if isinstance(told, dict) else None
    if code != 200 or not isinstance(rows, list) or not all(isinstance(row, dict) for row in rows):
        raise WrongRing(f"{address(host, port)}{path} answers {code}: is it that of ringd --status?")
    return dict(told)


def table(told: dict[str, Any]) -> str:
    """The same for people: what is told of the ring, then a row for each value, with a column for each node."""
    lines = [f"{name} {shown(name, value)}" for name, value in told.items() if not isinstance(value, (list, dict))]
    nodes = [flatten(node) for node in told.get("nodes", [])]
    names = sorted(dict.fromkeys(name for node in nodes for name in node), key=place)
    rows = [(name, [node.get(name, "0" if REFUSALS in name else "-") for node in nodes]) for name in names]
    wide = max([len(name) for name, _ in rows], default=0)
    widths = [max(map(len, column)) for column in zip(*(cells for _, cells in rows))]
    lines += [f"{name:<{wide}}  {'  '.join(map(str.rjust, cells, widths))}" for name, cells in rows]
    return "\n".join(lines)


def place(name: str) -> tuple[int, int]:
    """Which node it is stands first, and refusals stand last, by their numbers; all else stays in its order."""
    if name in FIRST:
        return FIRST.index(name), 0
    number = name.rpartition(".")[2] if REFUSALS in name else ""
    return len(FIRST) + bool(number), int(number) if number.isdecimal() else 0


def shown(name: str, value: Any) -> str:
    """A value, or the time that it is."""
    is_time = name == "started" and isinstance(value, int)
    return time.strftime("%Y-%m-%dT%H:%M:%SZ", time.gmtime(value)) if is_time else str(value)


def flatten(value: Any, name: str = "") -> dict[str, str]:
    """The values of a node, and those of the objects in it, as `journal.inputs`; of refusals the counts, by number, as
    `sessions.refusals.7`."""
    if isinstance(value, dict) and value.keys() == {"count", "number"}:
        return {f"{name}.{value['number']}": str(value["count"])}
    if isinstance(value, dict):
        parts = [flatten(part, f"{name}.{key}" if name else key) for key, part in value.items()]
    elif isinstance(value, list):
        parts = [flatten(part, name) for part in value]
    else:
        return {name: str(value)}
    return {key: text for part in parts for key, text in part.items()}
