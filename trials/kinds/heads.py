"""Heads of HTTP at the port of `--status`, against RFC 9112 as docs/OPERATING.md takes it, over a ring that nobody stands in but once."""
import json
import os
import random
import re

import lines
from programs import Kind, Programs, Server

MOST, FIELDS, NODES = 8_192, 64, 3
TOKEN = rb"[0-9A-Za-z!#$%&'*+.^_`|~-]"
# Each part of a head in its order, with what is a front of it.
PARTS = [
    (rb"%s+ " % TOKEN, rb"%s*" % TOKEN),
    (rb"[!-~\x80-\xff]+ ", rb"[!-~\x80-\xff]*"),
    (rb"HTTP/1\.[01]", rb"(?:H(?:T(?:T(?:P(?:/(?:1\.?)?)?)?)?)?)?"),
    (rb"\r?\n", rb"\r?"),
]
FIELD = (rb"%s+:[\t -~\x80-\xff]*\r?\n" % TOKEN, rb"%s+(?::[\t -~\x80-\xff]*\r?)?|\r?" % TOKEN)
PAGES = (b"/live", b"/ready", b"/health", b"/status", b"/metrics", b"/")


def request(head: bytes) -> int | tuple[bytes, bytes] | None:
    """The method and the target of a head, why it is refused, or None where it may become one."""
    at, found = re.compile(rb"(?:\r?\n)*").match(head).end(), []
    if head[at:] in (b"", b"\r"):
        return None
    for whole, front in PARTS:
        part = re.compile(whole).match(head, at)
        if part is None:
            return None if re.compile(rb"(?:%s)\Z" % front).match(head, at) else 400
        found.append(part.group())
        at = part.end()
        if len(found) == 2 and not is_text(found[1]):
            return 400
    for count in range(FIELDS + 1):
        end = re.compile(rb"\r?\n").match(head, at)
        if end:
            return found[0][:-1], found[1][:-1]
        field = re.compile(FIELD[0]).match(head, at)
        if count == FIELDS and at < len(head) and head[at:] != b"\r":
            return 431 if re.compile(TOKEN).match(head, at) else 400
        if field is None:
            return None if re.compile(rb"(?:%s)\Z" % FIELD[1]).match(head, at) else 400
        at = field.end()
    return 431


def is_text(target: bytes) -> bool:
    try:
        return bool(target.decode("utf-8"))
    except UnicodeDecodeError:
        return False


def node_of(parameter: bytes) -> int | None:
    word = parameter.removeprefix(b"node=")
    is_right = word != parameter and lines.NUMBER.fullmatch(word) and 1 <= int(word) <= 16
    return int(word) if is_right else None


def number_of(parameter: bytes, front: bytes, high: int) -> int | None:
    word = parameter.removeprefix(front)
    return int(word) if word != parameter and lines.NUMBER.fullmatch(word) and int(word) <= high else None


def next_of(query: bytes) -> tuple[int, int, int] | None:
    """The node, the term and the seconds of a query that waits for a leader above that term."""
    first, _, rest = query.partition(b"&")
    node = node_of(first)
    if node:
        first, _, rest = rest.partition(b"&")
    above, wait = number_of(first, b"above=", 999_999_999), number_of(rest, b"wait=", 60)
    return None if above is None or wait is None else (node or 1, above, wait)


def waited(sent: bytes) -> int:
    """For how many seconds an answer may be waited for."""
    asked = request(sent[:MOST])
    path, _, query = asked[1].partition(b"?") if isinstance(asked, tuple) else (b"", b"", b"")
    coming = next_of(query) if path.startswith(b"/leaders/") else None
    return coming[2] if coming else 0


def status_of(target: bytes) -> int:
    """How a target is answered: its query is read where it is one of leaders."""
    path, mark, query = target.partition(b"?")
    if path in PAGES:
        return 200
    if path.startswith(b"/groups/"):
        return 400 if not lines.NAME.fullmatch(path[8:]) else 200 if path[8:] == b"red" else 404
    if path == b"/leaders":
        first, also, second = query.partition(b"&")
        after = second if also else first
        name = after.removeprefix(b"after=")
        has_name = name != after and lines.NAME.fullmatch(name)
        node = node_of(first)
        if mark and not (has_name and (node or not also) or node and not also):
            return 400
        return 200 if (node or 1) <= NODES else 404
    if not path.startswith(b"/leaders/"):
        return 404
    coming = next_of(query)
    if coming and lines.NAME.fullmatch(path[9:]):
        node, above, _ = coming
        return 404 if node > NODES else 200 if path[9:] == b"red" and above < 1 else 204
    node = node_of(query) if mark else 1
    if not lines.NAME.fullmatch(path[9:]) or node is None:
        return 400
    return 200 if node <= NODES and path[9:] == b"red" else 404


def right_status(sent: bytes) -> int | None:
    """The status of the answer, None where there is none."""
    asked = request(sent[:MOST])
    if asked is None:
        return 431 if len(sent) >= MOST else None
    if isinstance(asked, int):
        return asked
    return status_of(asked[1]) if asked[0] in (b"GET", b"HEAD") else 405


class Heads(Kind):
    """A case is a list of parts, which are sent one behind the other."""

    name = "heads"

    def __init__(self, programs: Programs) -> None:
        super().__init__(programs)
        os.mkdir(programs.path("ring"))
        self.server = Server(programs, programs.path("ring"), NODES, 4_096, ["--always"])
        if self.server.ended or self.server.exchange(self.server.port, [b"stand red 1 1\n"]) != b"stood\n":
            raise SystemExit(f"the ring does not serve: {self.server.ended}")
        self.server.rest()

    def case(self, rng: random.Random) -> list[bytes]:
        end = rng.choice([b"\r\n"] * 4 + [b"\n"])
        case = [rng.choice([b""] * 9 + [b"\r\n", b"\n\n"]), rng.choice(METHODS), b" ", target(rng), b" ", rng.choice(VERSIONS), end]
        for _ in range(rng.choice([0, 1, 1, 2, 3, 62, 63, 64, 65])):
            case.append(rng.choice(NAMES) + b":" + rng.choice(SPACES) + rng.choice(VALUES) + end)
        case.append(end)
        kind = rng.random()
        if kind < 0.15:
            # A head of as many bytes as are taken, or some more or less.
            long = MOST - sum(map(len, case)) + rng.randint(-2, 2) - 3 - len(end)
            case.insert(7, b"x: " + b"y" * max(0, long) + end)
        elif kind < 0.3:
            case = case[:rng.randint(0, len(case))]
        elif kind < 0.4:
            case *= 2
        for _ in range(rng.choice([0, 0, 1, 1, 2, 4])):
            place = rng.randrange(max(1, len(case)))
            if case:
                at = rng.randint(0, len(case[place]))
                case[place] = case[place][:at] + rng.randbytes(rng.randint(0, 1)) + case[place][at + rng.randint(0, 1):]
        return case

    def differs(self, case: list[bytes]) -> str | None:
        sent = b"".join(case)
        # The client ends its side behind the head, and who waits is left then.
        if waited(sent):
            return None
        right = right_status(sent)
        cut = len(sent) // 2 if len(sent) % 3 == 0 else 0
        try:
            answer = self.server.exchange(self.server.status_port, [sent[:cut], sent[cut:]] if cut else [sent])
        except OSError as error:
            return f"{error!r}"
        if self.server.is_over():
            return "ringd ended"
        return fault(answer, right, sent)

    def close(self) -> str | None:
        return self.server.kill()


def fault(answer: bytes, right: int | None, sent: bytes) -> str | None:
    """What is wrong with an answer."""
    if right is None:
        return f"an answer: {answer!r}" if answer else None
    head, _, body = answer.partition(b"\r\n\r\n")
    first, *fields = head.split(b"\r\n")
    if not first.startswith(b"HTTP/1.1 %d " % right):
        return f"{first!r}, and not {right}"
    values = dict(field.split(b": ", 1) for field in fields)
    asked = request(sent[:MOST])
    whole = int(values.get(b"Content-Length", b"0"))
    may_be = {0 if asked[0] == b"HEAD" else whole} if isinstance(asked, tuple) else {0, whole}
    if len(body) not in may_be:
        return f"{len(body)} bytes of a body, with {head!r}"
    if values.get(b"Content-Type") == b"application/json" and body:
        json.loads(body)
    return None


METHODS = [b"GET"] * 12 + [b"HEAD", b"HEAD", b"POST", b"get", b"G", b"GET!", b"OPTIONS", b""]
VERSIONS = [b"HTTP/1.1"] * 12 + [b"HTTP/1.0", b"HTTP/1.2", b"HTTP/2", b"http/1.1", b"HTTP/1.1 ", b""]
NAMES = [b"Host", b"accept", b"X-1", b"Content-Length", b"Transfer-Encoding", b"a", b"!#$%&'*+-.^_`|~", b"a b", b""]
SPACES = [b" ", b"", b"\t", b"  "]
VALUES = [b"127.0.0.1", b"", b"5", b"chunked", b"\x80\xff", b"a\tb", b"*/*", b"x" * 100]
QUERIES = [b"", b"node=1", b"node=3", b"node=4", b"node=0", b"node=16", b"node=17", b"node=0000000002", b"node=00000000002", b"node=1&after=red",
           b"after=red", b"after=Red", b"after=red&node=1", b"node=1&node=2", b"node=", b"x=1", b"node=1&", b"after=", b"?", b"node=2&after=zz",
           b"above=0&wait=1", b"above=0&wait=0", b"node=2&above=1&wait=0", b"node=4&above=0&wait=0", b"above=7", b"above=0&wait=61", b"wait=0&above=0"]


def target(rng: random.Random) -> bytes:
    path = rng.choice([*PAGES, b"/leaders", b"/leaders", b"/leaders/red", b"/leaders/blue", b"/leaders/", b"/leaders/Red", b"*", b"/heal",
                       b"/groups/red", b"/groups/blue", b"/groups/Red", b"/groups/", b"/groups", b"/health/", b"//health", b"/leaders/abcdefghijklmnopq", b"/leaders/red/", b"http://a/health", b"/%68ealth", b"/\xc3\xa4"])
    return path + (b"?" + rng.choice(QUERIES) if rng.random() < 0.5 else b"")
