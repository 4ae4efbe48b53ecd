"""Hosts, and how they are told."""
import contextlib
import re
import socket
import threading

from .errors import WrongRing

# Where a ring is whose host is not told.
OWN = "127.0.0.1"
NUMBER = "(25[0-5]|2[0-4][0-9]|1[0-9][0-9]|[1-9]?[0-9])"
ADDRESS = re.compile(rf"({NUMBER}\.){{3}}{NUMBER}")
# The last part of a name is no number, so that no wrong address is one. A name is no longer, in bytes.
PART = "[A-Za-z0-9]([A-Za-z0-9-]{0,61}[A-Za-z0-9])?"
NAME = re.compile(rf"({PART}\.)*(?![0-9]+\.?\Z){PART}\.?")
LONGEST = 253


def require(host: str) -> str:
    """The host, which is an IPv4 or IPv6 address or a name, without brackets; else `WrongRing`."""
    if ":" in host:
        with contextlib.suppress(OSError, ValueError):
            return socket.inet_ntop(socket.AF_INET6, socket.inet_pton(socket.AF_INET6, host))
    elif ADDRESS.fullmatch(host) is not None or len(host) <= LONGEST and NAME.fullmatch(host) is not None:
        return host
    raise WrongRing(f"{host!r} is no IP address and no name of a host")


def within_brackets(text: str) -> str:
    """The host that stands before a port as `[::1]`, where it is an IPv6 address, or as it is; else `WrongRing`."""
    is_bracketed = text.startswith("[") and text.endswith("]")
    if is_bracketed != (":" in text):
        raise WrongRing(f"{text!r} is no IP address and no name of a host")
    return require(text[1:-1] if is_bracketed else text)


def address(host: str, port: object) -> str:
    """As a host and a port are told: `10.0.0.5:7100`, `[::1]:7100`."""
    return f"[{host}]:{port}" if ":" in host else f"{host}:{port}"


def is_own(host: str) -> bool:
    """Whether it is this host alone: an address of 127.0.0.0/8, `::1`, or `localhost`. No other name is looked up for that:
    it may be one of 127.0.0.0/8 on its own host, and another address elsewhere."""
    is_address = host == "::1" or host.startswith("127.") and ADDRESS.fullmatch(host) is not None
    return is_address or host.lower().rstrip(".") == "localhost"


def addresses(host: str) -> set[str]:
    """Its addresses; none where it is not found."""
    try:
        return {str(found[4][0]) for found in socket.getaddrinfo(host, None)}
    except OSError:
        return set()


class LookUp(threading.Thread):
    """Asks the system for the addresses of a name, for which it takes as long as it likes."""

    def __init__(self, host: str) -> None:
        super().__init__(daemon=True)
        self.host, self.found = host, list[str]()
        self.fault: OSError | None = None

    def run(self) -> None:
        try:
            found = socket.getaddrinfo(self.host, None, type=socket.SOCK_STREAM)
            self.found = [*dict.fromkeys(str(each[4][0]) for each in found)]
        except OSError as fault:
            self.fault = fault


# The last one of each name.
LOOK_UPS: dict[str, LookUp] = {}


def look_up(host: str, seconds: float) -> list[str]:
    """Its addresses, in the system's order, within so many seconds; else `OSError`. Who asks for a name that is looked up
    waits for the same."""
    if ":" in host or ADDRESS.fullmatch(host) is not None:
        return [host]
    asked = LOOK_UPS.get(host)
    if asked is None or not asked.is_alive():
        asked = LookUp(host)
        try:
            asked.start()
        except RuntimeError as fault:
            raise OSError(f"{host}: {fault}") from None
        LOOK_UPS[host] = asked
    asked.join(seconds)
    if asked.fault is not None:
        raise asked.fault
    if not asked.found:
        raise TimeoutError(f"{host} is not found in time")
    return asked.found


def place(text: str, host: str) -> tuple[str, int]:
    """The host and the port of a text as `10.0.0.5:7100` or `[::1]:7100`; a port alone is one of this host. Else
    `WrongRing`."""
    words = re.fullmatch(r"(?:(.*):)?(\d{1,5})", text, re.ASCII)
    if words is None or not 1 <= int(words[2]) <= 65_535:
        raise WrongRing(f"{text}: a port is told as 7100, or as 10.0.0.5:7100")
    return host if words[1] is None else within_brackets(words[1]), int(words[2])
