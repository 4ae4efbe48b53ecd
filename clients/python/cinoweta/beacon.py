"""Who stands for a lock answers while it is there, at a port of 127.0.0.1 which its bid names, and keeps those in line who
wait for it there. docs/SESSIONS.md tells the lines."""
import contextlib
import os
import secrets
import selectors
import socket
import struct
import sys
import threading
import time

from . import forks

# A bid is rank * RANK + port * SPREAD + a random number below SPREAD.
RANK, SPREAD = 100_000_000, 1_525
# The lines that a beacon takes, and what it tells of its holder, are no longer, in bytes.
LONGEST, LONGEST_TEXT = 300, 200
# So long a beacon waits for one client's line, and for who waits in line, in seconds.
LIMIT, SILENT = 0.5, 5.0
# So long is waited where a descriptor is wanting, say, before it is tried again.
PAUSE = 0.02
# So many clients that asked nothing yet are served side by side, and so many wait in line.
CLIENTS, WAITERS = 256, 256
# Whether a thread that waits for clients is woken as its port is shut, which is refused from then on. Where it is not, it
# looks so often, in seconds.
IS_WOKEN = sys.platform == "linux"
LOOKS = None if IS_WOKEN else 1.0


def require_rank(rank: int) -> None:
    if not 0 <= rank <= 9:
        raise ValueError("a lock's rank is 0 to 9")


def require_text(text: str) -> None:
    if not text.isprintable() or len(text.encode()) > LONGEST_TEXT:
        raise ValueError("a holder's text is one printable line of 200 bytes at most")


def port_of(bid: int) -> int:
    return bid % RANK // SPREAD


class Client:
    """A connection to a beacon, and, where it waits in line, what it told."""

    def __init__(self, connection: socket.socket) -> None:
        self.connection, self.front, self.heard = connection, b"", time.monotonic()
        self.own, self.told, self.since, self.place = 0, "", 0, 0

    def order(self) -> tuple[int, int]:
        """The greatest rank comes first, then who has waited since longer."""
        return -(self.own // RANK), self.since


class Beacon:
    """Answers at a port of 127.0.0.1 while this process runs, and is neither paused nor killed; all clients side by side."""

    def __init__(self, rank: int, text: str) -> None:
        require_rank(rank)
        require_text(text)
        self.server = socket.create_server(("127.0.0.1", 0), backlog=1_024)
        self.server.setblocking(False)
        self.bid = rank * RANK + self.server.getsockname()[1] * SPREAD + secrets.randbelow(SPREAD)
        self.process = os.getpid()
        self.holder = f"{self.bid} {self.process} {text}"
        self.mutex, self.over = threading.Lock(), threading.Event()
        self.clients: dict[Client, None] = {}
        # Windows has no poll.
        self.selector: selectors.BaseSelector = getattr(selectors, "PollSelector", selectors.SelectSelector)()
        self.selector.register(self.server, selectors.EVENT_READ)
        forks.register(self)
        threading.Thread(target=self.serve, daemon=True).start()

    def serve(self) -> None:
        while not self.over.is_set():
            ready = self.selector.select(self.rest())
            with self.mutex:
                if self.over.is_set():
                    break
                is_wanting = False
                for key, _ in ready:
                    if key.data is None:
                        is_wanting = not self.accept()
                    elif key.data in self.clients:
                        self.hear(key.data)
                self.let_go()
            if is_wanting:
                self.over.wait(PAUSE)
        self.selector.close()
        self.server.close()

    def rest(self) -> float | None:
        """How long may be waited for the next client."""
        with self.mutex:
            if not self.clients:
                return LOOKS
            return 1.0 if all(client.own for client in self.clients) else 0.1

    def accept(self) -> bool:
        """Takes who connects. False where that was refused, as for want of a descriptor."""
        try:
            connection, _ = self.server.accept()
        except BlockingIOError:
            return True
        except OSError:
            return False
        connection.setblocking(False)
        client = Client(connection)
        self.clients[client] = None
        self.selector.register(connection, selectors.EVENT_READ, client)
        self.hear(client)
        asking = [each for each in self.clients if not each.own]
        if len(asking) > CLIENTS:
            # It is reset, so that it asks again: an end would tell that the beacon has another bid.
            asking[0].connection.setsockopt(socket.SOL_SOCKET, socket.SO_LINGER, struct.pack("ii", 1, 0))
            self.leave(asking[0])
        return True

    def hear(self, client: Client) -> None:
        """Takes what a client sent, and answers its lines."""
        try:
            part = client.connection.recv(4_096)
        except BlockingIOError:
            return
        except OSError:
            part = b""
        client.front += part
        while client in self.clients and b"\n" in client.front[:LONGEST + 1]:
            line, _, client.front = client.front.partition(b"\n")
            self.answer(client, line.decode("utf-8", "replace"))
        if client in self.clients and (not part or len(client.front) > LONGEST):
            self.leave(client)

    def answer(self, client: Client, line: str) -> None:
        client.heard = time.monotonic()
        if line == str(self.bid):
            self.send(client, line)
        elif line == f"holder {self.bid}":
            self.send(client, self.holder)
        elif line == f"waiters {self.bid}":
            told = [waiter.told for waiter in self.line()]
            client.connection.setsockopt(socket.SOL_SOCKET, socket.SO_SNDBUF, 1 << 17)
            self.send(client, "\n".join([f"waiters {len(told)}", *told]))
        elif not client.own and self.is_kept(client, line.split(" ", 5)):
            self.tell_places()
            return
        else:
            self.leave(client)
        if not client.own:
            self.leave(client)

    def is_kept(self, client: Client, words: list[str]) -> bool:
        """Whether the client waits in line from here on: its words are `wait BID OWN SINCE PROCESS TEXT`."""
        if len(words) < 5 or words[:2] != ["wait", str(self.bid)] or len(self.line()) >= WAITERS:
            return False
        numbers, text = words[2:5], "".join(words[5:])
        if not all(word.isascii() and word.isdecimal() and len(word) <= 15 for word in numbers):
            return False
        if not 0 < int(words[2]) < 10 * RANK:
            return False
        if not text.isprintable() or len(text.encode()) > LONGEST_TEXT:
            return False
        for other in self.line():
            if other.own == int(words[2]):
                self.leave(other)
        client.own, client.told, client.since = int(words[2]), f"{words[2]} {words[4]} {text}", int(words[3])
        return True

    def line(self) -> list[Client]:
        """Who waits, in order."""
        return sorted((client for client in self.clients if client.own), key=Client.order)

    def tell_places(self) -> None:
        for place, client in enumerate(self.line(), 1):
            if client.place != place:
                client.place = place
                self.send(client, f"place {place}")
                if client not in self.clients:
                    # It took none, and as it was left the others were told theirs.
                    return

    def send(self, client: Client, line: str) -> None:
        """Sends a line. A client that takes none is left."""
        try:
            client.connection.sendall(f"{line}\n".encode())
        except OSError:
            self.leave(client)

    def leave(self, client: Client) -> None:
        if self.clients.pop(client, client) is None:
            with contextlib.suppress(KeyError, ValueError):
                self.selector.unregister(client.connection)
            client.connection.close()
            if client.own:
                self.tell_places()

    def let_go(self) -> None:
        """Leaves who was silent for too long."""
        now = time.monotonic()
        for client in [*self.clients]:
            if now - client.heard > (SILENT if client.own else LIMIT):
                self.leave(client)

    def close(self) -> int:
        """Ends it: the first of those who wait is told that it is its turn, the others who that is. The bid of the first;
        0 where nobody waits."""
        with self.mutex:
            if self.over.is_set():
                return 0
            self.over.set()
            line = self.line()
            first = line[0].own if line else 0
            for place, client in enumerate(line):
                # It asks for its place no more.
                client.own = 0
                self.send(client, f"after {first}" if place else "turn")
            for client in self.clients:
                self.end(client.connection)
            with contextlib.suppress(OSError):
                self.server.shutdown(socket.SHUT_RDWR)
            if not IS_WOKEN:
                self.server.close()
            # Else the thread that waits for clients closes it. Its number may be that of another file as soon as it is closed: a
            # thread that comes to wait only then would wait for that one without an end, and keep it open whoever closes it.
        return first

    def end(self, connection: socket.socket) -> None:
        """Ends a connection so that no line is lost to a reset for what was not read."""
        with contextlib.suppress(OSError):
            connection.shutdown(socket.SHUT_WR)
            connection.recv(1 << 16)
        connection.close()

    def forget(self) -> None:
        """In a process that was forked the one of its parent goes on, and nothing here is open."""
        self.over = threading.Event()
        self.over.set()
        self.mutex = threading.Lock()
        for client in [*self.clients]:
            client.connection.close()
        self.server.close()
