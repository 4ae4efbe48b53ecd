"""Ports of this host that nobody uses, below those that the system gives by itself, so that two runs on a machine do not meet."""

import random
import socket

RANGE = "/proc/sys/net/ipv4/ip_local_port_range"
# How many below the system's own are drawn from, and what stands in their place where there are fewer.
COUNT, USUAL = 22_000, 32_768


def end_of_ports() -> int:
    """The first port that the system may give by itself."""
    try:
        with open(RANGE, encoding="ascii") as given:
            end = min(int(given.read().split()[0]), USUAL)
    except OSError:
        end = USUAL
    return end if end > 2 * 1_024 else USUAL


class Ports:
    """So many ports in a row, which nobody else draws until they are closed.

    A socket is bound to each and does not listen. A server that allows its port to be used again, as ringd does, may listen there
    meanwhile, end and come back."""

    def __init__(self, count: int) -> None:
        self.held: list[socket.socket] = []
        end = end_of_ports()
        for _ in range(1_000):
            self.first = random.randrange(max(1_024, end - COUNT), end - count)
            try:
                for port in range(self.first, self.first + count):
                    self.hold(port)
                return
            except OSError:
                self.close()
        raise RuntimeError("no free ports")

    def hold(self, port: int) -> None:
        held = socket.socket()
        self.held.append(held)
        held.bind(("0.0.0.0", port))
        # Only now: before, a port would be taken that another one holds.
        held.setsockopt(socket.SOL_SOCKET, socket.SO_REUSEADDR, 1)

    def close(self) -> None:
        """Lets them go."""
        for held in self.held:
            held.close()
        self.held.clear()

    def __enter__(self) -> "Ports":
        return self

    def __exit__(self, *_: object) -> None:
        self.close()


def free_ports(count: int) -> int:
    """The first of so many ports in a row that nobody uses now."""
    with Ports(count) as ports:
        return ports.first
