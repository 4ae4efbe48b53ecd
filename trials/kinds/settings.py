"""Settings, against Python's tomllib and the order of faults of docs/OPERATING.md."""
import math
import random
import re
import tomllib

from programs import Kind

WHOLE = range(-2**63, 2**63)
NO_TOML = b"ringd: settings are not TOML\n"
# Which line it is stands behind that: another reader may see it a line later.
LINE = re.compile(rb"ringd: line \d+ of the settings\n")
# What is TOML 1.1, which ringd takes, and may be none to tomllib, which takes 1.0 and Python's dates.
NEWER = re.compile(rb"\\[xe]|\{[^}]*[,\n]\s*\}|\{[^}]*\n|\d\d:\d\d|0000-|^\xef\xbb\xbf")

MAY_BE = {"nodes": "a number from 2 to 16", "dir": "a path of 1 to 200 printed ASCII characters, none of them a space",
          "port": "a number from 1 to 65535, as is the port of the last node", "capacity": "a number from 4096 to 1048576"}


def holds(value: object, is_bad) -> bool:
    """Whether some value within it is bad."""
    if isinstance(value, dict):
        return any(holds(each, is_bad) for each in value.values())
    if isinstance(value, list):
        return any(holds(each, is_bad) for each in value)
    return is_bad(value)


def finite(word: str) -> float:
    """A number that is too great for a float is none."""
    if math.isinf(float(word)) and "inf" not in word:
        raise ValueError(word)
    return float(word)


def is_within(value: object, low: int, high: int) -> bool:
    return type(value) is int and low <= value <= high


def is_printed(text: bytes, most: int) -> bool:
    return 1 <= len(text) <= most and all(0x21 <= each <= 0x7E for each in text)


def is_path(value: object) -> bool:
    return isinstance(value, str) and is_printed(value.encode(), 200)


def told(text: bytes) -> tuple[int, bytes, bytes]:
    """The status, and what is printed."""
    try:
        table = tomllib.loads(text.decode("utf-8"), parse_float=finite)
    except UnicodeDecodeError:
        return 2, b"", b"ringd: settings cannot be read\n"
    except (tomllib.TOMLDecodeError, ValueError):
        return 2, b"", NO_TOML
    if holds(table, lambda value: type(value) is int and value not in WHOLE):
        return 2, b"", NO_TOML
    table.setdefault("capacity", 65_536)
    nodes = table.get("nodes")
    # Where nodes is at fault, that is told before the port is looked at.
    last = 65_536 - nodes if is_within(nodes, 2, 16) else 0
    for key, is_right in (("nodes", is_within(nodes, 2, 16)), ("dir", is_path(table.get("dir"))),
                          ("port", is_within(table.get("port"), 1, last)),
                          ("capacity", is_within(table.get("capacity"), 4_096, 1_048_576))):
        if not is_right:
            told = "wrong" if key in table else "missing"
            return 2, b"", f"ringd: setting {key} is {told}\nringd: {key} is {MAY_BE[key]}\n".encode()
    unknown = sorted(key.encode() for key in set(table) - set(MAY_BE))
    if unknown:
        shown = b"ringd: setting %s is unknown\n" % unknown[0] if is_printed(unknown[0], 64) else b""
        return 2, b"", b"ringd: a setting is unknown\n" + shown + b"ringd: settings are nodes, dir, port and capacity\n"
    return 0, "".join(f"{key} {table[key]}\n" for key in ("nodes", "dir", "port", "capacity")).encode(), b""


class Settings(Kind):
    """A case is a list of pieces of a text."""

    name = "settings"

    def case(self, rng: random.Random) -> list[bytes]:
        lines = [b"%s%s=%s%s" % (rng.choice(KEYS[place]), rng.choice(GAPS), rng.choice(GAPS), rng.choice(VALUES[place]))
                 for place in range(4) if rng.random() < 0.97]
        for _ in range(rng.choice([0, 0, 0, 0, 1, 1, 2])):
            lines.insert(rng.randint(0, len(lines)), rng.choice(MORE))
        rng.shuffle(lines)
        case = [line + rng.choice(ENDS) for line in lines]
        for _ in range(rng.choice([0, 0, 0, 1, 1, 2])):
            place = rng.randrange(len(case)) if case else 0
            if case:
                line, at = case[place], rng.randint(0, len(case[place]))
                more = rng.choice([rng.randbytes(1), rng.choice(PIECES)])
                case[place] = line[:at] + more + line[at + rng.randint(0, 1):]
        return case

    def differs(self, case: list[bytes]) -> str | None:
        text = b"".join(case)
        ended = self.programs.run([self.programs.ringd], text)
        right = told(text)
        is_newer = right[2] == NO_TOML and NEWER.search(text)
        same = (*ended[:2], LINE.sub(b"", ended.err)) == right
        return ended.fault or (None if is_newer or same else f"{ended[:3]}, and not {right}")


GAPS = [b" ", b" ", b"", b"\t", b"  "]
ENDS = [b"\n"] * 9 + [b"\r\n", b" # a comment\n", b"", b"\n\n", b" \n"]
KEYS = [[b"nodes"] * 9 + [b'"nodes"', b"'nodes'", b'"nod\\u0065s"', b"nodes.a"], [b"dir"] * 9 + [b'"dir"', b"Dir"],
        [b"port"] * 9 + [b"'port'"], [b"capacity"] * 9 + [b"cap"]]
VALUES = [
    [b"3"] * 6 + [b"2", b"16", b"1", b"17", b"0x3", b"0b11", b"0o17", b"+3", b"-3", b"1_0", b"3.0", b'"3"', b"true", b"03", b"[3]", b"{}", b"3e0"],
    [b'"ring"'] * 6 + [b"'ring'", b'""', b'"a b"', b'"' + b"d" * 200 + b'"', b'"' + b"d" * 201 + b'"', b'"""\nring"""', b"'''ring'''",
                       b'"\\u0072ing"', b'"\\x41"', b'"\\t"', b'"\xc3\xa4"', b'"~!"', b"7", b'"\\U0000007F"', b'"\\uD800"', b'"a\\\\b"'],
    [b"7101"] * 6 + [b"1", b"0", b"65535", b"65533", b"65534", b"65520", b"65536", b"9223372036854775808", b"9223372036854775807", b"0x1BBD",
                     b"7_101", b"_7", b"7__1", b"-1", b"inf"],
    [b"65536"] * 4 + [b"4096", b"4095", b"1048576", b"1048577", b"0x1000", b"1e5", b"nan", b"4096.0", b"1979-05-27", b"07:32:00"],
]
MORE = [b"a = 1", b"[nodes]", b"[table]\nx = 1", b"[[many]]", b"nodes = 3", b"a.b.c = 2", b"'' = 1", b"x = [1, [2, 3,], # c\n]", b"y = {a = 1, b.c = 2}",
        b"# nodes = 4", b"", b"d = 1979-05-27T07:32:00Z", b"d = 1979-05-27 07:32:00.5-07:00", b"f = 6.626e-34", b"big = 99999999999999999999",
        b"z = {a = 1,}", b"s = 'a", b's = """a\\\n  b"""', b"[a]\n[a]", b"[a.b]\n[a]", b"\xef\xbb\xbf", b"deep = " + b"[" * 60 + b"]" * 60]
PIECES = [b"=", b"#", b'"', b"'", b"\\", b"[", b"]", b"{", b"}", b".", b",", b"\r", b"\x00", b"\x7f", b"\xc2\x85", b"_", b"+", b"e", b"0", b"\xf0\x9f"]
