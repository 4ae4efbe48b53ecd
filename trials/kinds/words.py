"""The words of `ringd`, against docs/OPERATING.md and how words are commonly taken."""
import ipaddress
import random
import re

from programs import Kind

NUMBERS = {b"serve": (1, 1_000), b"doors": (1, 32), b"idle": (0, 86_400), b"status": (1, 65_535), b"watchers": (0, 64)}
FLAGS = {b"always", b"existing", b"fail-stop", b"make", b"check", b"leaders", b"verbose"}
TEXTS = {b"settings", b"listen", b"ring", b"log"}
FORMS = {b"plain": rb"", b"journal": rb"<3>", b"time": rb"\d{4}-\d\d-\d\dT\d\d:\d\d:\d\dZ error "}
BYTE = rb"(?:25[0-5]|2[0-4]\d|1\d\d|[1-9]?\d)"
WRONG, HELP, VERSION, TAKEN = "wrong", "help", "version", "taken"


def is_number(value: bytes, low: int, high: int) -> bool:
    """As Rust reads a signed one that may not be below 0: digits, behind a plus where there is one; and `-0` is 0."""
    digits = value.removeprefix(b"+") if value.strip(b"0") != b"-" else value[1:]
    return digits.isdigit() and int(digits) < 2**32 and low <= int(digits) <= high


def is_address(value: bytes) -> bool:
    """Four numbers to 255, parted by dots, without leading zeros."""
    return re.fullmatch(rb"%s(\.%s){3}" % (BYTE, BYTE), value) is not None


def is_address_of_ipv6(value: bytes) -> bool:
    """As RFC 4291 spells one, without a zone."""
    try:
        ipaddress.IPv6Address(value.decode("ascii"))
        return b"%" not in value
    except ValueError:
        return False


def is_host(value: bytes) -> bool:
    """An address, that of IPv6 in square brackets too, or a name, which has a letter first behind its last dot."""
    if is_address(value) or is_address_of_ipv6(value) or value[:1] == b"[" and value[-1:] == b"]" and is_address_of_ipv6(value[1:-1]):
        return True
    return len(value) <= 253 and re.fullmatch(rb"([0-9A-Za-z._-]*\.)?[A-Za-z][0-9A-Za-z_-]*", value) is not None


def outcome(words: list[bytes]) -> str:
    """What comes of the words."""
    said: dict[bytes, bytes] = {}
    at = 0
    while at < len(words):
        word, at = words[at], at + 1
        if word in (b"--help", b"-h") or word[:2] == b"-h":
            return HELP
        if word in (b"--version", b"-V") or word[:2] == b"-V":
            return VERSION
        name, equals, value = word.removeprefix(b"--").partition(b"=")
        if word == b"--":
            # What stands behind it is no word of ringd.
            if at < len(words):
                return WRONG
            break
        if not word.startswith(b"--") or name in said or name not in FLAGS | TEXTS | set(NUMBERS):
            return WRONG
        if name in FLAGS:
            if equals:
                return WRONG
        elif not equals:
            if at == len(words) or words[at].startswith(b"-") and words[at] != b"-":
                return WRONG
            value, at = words[at], at + 1
        if name in NUMBERS and not is_number(value, *NUMBERS[name]):
            return WRONG
        said[name] = value
    if b"make" in said and said.keys() & {b"serve", b"always", b"existing", b"check"}:
        return WRONG
    if b"check" in said and said.keys() & {b"serve", b"always"}:
        return WRONG
    if b"leaders" in said and b"check" not in said or not is_host(said.get(b"listen", b"127.0.0.1")):
        return WRONG
    if not re.fullmatch(rb"[0-9a-fA-F]{32}", said.get(b"ring", b"0" * 32)) or said.get(b"log", b"plain") not in FORMS:
        return WRONG
    if b"always" in said and b"serve" in said or b"status" in said and int(said.get(b"doors", b"1")) > 31:
        return WRONG
    return TAKEN if said.get(b"settings", b"-") == b"-" else "path"


def are_lines(err: bytes, *texts: bytes) -> bool:
    """Whether it is these lines, in one of the forms."""
    return any(re.fullmatch(b"".join(form + text + rb"\n" for text in texts), err) for form in FORMS.values())


class Words(Kind):
    """A case is a list of words. The settings are none, so that nothing is served."""

    name = "words"

    def case(self, rng: random.Random) -> list[bytes]:
        case: list[bytes] = []
        for _ in range(rng.choice([0, 1, 2, 2, 3, 3, 4, 6])):
            name = rng.choice([*NUMBERS, *FLAGS, *TEXTS, rng.choice([b"help", b"version", b"door", b"Serve", b"", b"fail_stop"])])
            value = rng.choice(VALUES) if rng.random() < 0.5 else b"%d" % rng.choice(NUMBERS.get(name, (1, 2)))
            if name in FLAGS or name in (b"help", b"version"):
                case.append(b"--" + name + (b"=" + value if rng.random() < 0.03 else b""))
            elif rng.random() < 0.4:
                case.append(b"--" + name + b"=" + value)
            else:
                case += [b"--" + name, value]
        if rng.random() < 0.1:
            case.insert(rng.randint(0, len(case)), rng.choice([b"-", b"--", b"-h", b"-V", b"-x", b"x", b"", b"\xff", b"-hV", b"---", b"-s"]))
        if case and rng.random() < 0.1:
            place = rng.randrange(len(case))
            at = rng.randint(0, len(case[place]))
            case[place] = case[place][:at] + rng.choice([rng.randbytes(1), b"-", b"=", b"0"]) + case[place][at + rng.randint(0, 1):]
        return [word.replace(b"\0", b"") for word in case]

    def differs(self, case: list[bytes]) -> str | None:
        ended = self.programs.run([self.programs.ringd, *case], b"none")
        if ended.fault:
            return ended.fault
        right = outcome(case)
        try:
            b"".join(case).decode("utf-8")
        except UnicodeDecodeError:
            right = "text"
        is_right = {
            "text": ended[:3] == (2, b"", b"ringd: words are not text\n"),
            WRONG: ended[:2] == (2, b"") and ended.err.startswith(b"error: "),
            HELP: ended.status == 0 and b"Usage: ringd" in ended.out and not ended.err,
            VERSION: ended.status == 0 and re.fullmatch(rb"ringd \d+\.\d+\.\d+ \(layout \d+\)\n", ended.out) and not ended.err,
            TAKEN: ended[:2] == (2, b"") and are_lines(ended.err, b"ringd: settings are not TOML", b"ringd: line 1 of the settings"),
            "path": ended[:2] == (2, b"") and ended.err.startswith(b"ringd: settings cannot be read\n"),
        }[right]
        return None if is_right else f"{ended[:3]}, where it is {right}"


VALUES = [b"0", b"1", b"32", b"33", b"31", b"1000", b"1001", b"86400", b"86401", b"65535", b"65536", b"4294967296", b"4294967297", b"+5", b"-5", b"05",
          b"5.0", b" 5", b"", b"x", b"-", b"--", b"1_0", b"0x1", "٣".encode(), b"00000000000000000000001", b"18446744073709551617", b"no/such/file",
          b"10.0.0.255", b"0.0.0.0", b"256.1.1.1", b"01.2.3.4", b"1.2.3", b"1.2.3.4.5", b"::1", b"[::1]", b"::ffff:1.2.3.4", b"[1.2.3.4]", b"::g", b"::%1", b"localhost", b"a.b-c", b"a.1", b"a..b", b"[",
          b"plain", b"journal", b"time", b"0123456789abcdefABCDEF0123456789"]
