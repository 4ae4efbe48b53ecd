"""The programs under test, rings that `ringd` serves, and clients of them, for the tests of this folder and others.

The programs are those of RINGD and RINGCTL, or bin/ringd and bin/ringctl. Each wait ends after PATIENCE seconds: how long a start or a
sync takes is for the machine to say."""

import contextlib
import json
import os
import pathlib
import shutil
import socket
import subprocess
import tempfile
import threading
import time
import unittest
import urllib.error
import urllib.request
from collections.abc import Callable, Iterator
from typing import Any

from refuser import NoCompiler, Refuser, build

from ports import Ports, free_ports as free_ports

ROOT = pathlib.Path(__file__).resolve().parent.parent
RINGD, RINGCTL = (os.path.realpath(os.environ.get(name.upper()) or ROOT / "bin" / name) for name in ("ringd", "ringctl"))
PATIENCE = 60.0
HOST = "127.0.0.1"


def require(program: str) -> None:
    """Raises where the program is not there."""
    if not os.access(program, os.X_OK):
        name = os.path.basename(program)
        raise RuntimeError(f"{program} is not there: make bin/{name} builds it, and {name.upper()} names another one")


def at_last(is_so: Callable[[], bool], seconds: float = PATIENCE, pause: float = 0.005) -> bool:
    """Whether it is so in the end."""
    until = time.monotonic() + seconds
    while not is_so():
        if time.monotonic() > until:
            return False
        time.sleep(pause)
    return True


def together(*calls: Callable[[], object]) -> None:
    """Makes these calls side by side. Raises what the first of them raises."""
    faults: list[BaseException] = []

    def caught(call: Callable[[], object]) -> None:
        try:
            call()
        except BaseException as fault:
            faults.append(fault)

    threads = [threading.Thread(target=caught, args=(call,)) for call in calls]
    for thread in threads:
        thread.start()
    for thread in threads:
        thread.join()
    if faults:
        raise faults[0]


class Client:
    """A session at a port of a node, which may not listen yet."""

    def __init__(self, port: int, is_over: Callable[[], bool] = lambda: False) -> None:
        until = time.monotonic() + PATIENCE
        while True:
            try:
                self.stream = socket.create_connection((HOST, port), timeout=PATIENCE)
                break
            except OSError:
                if is_over() or time.monotonic() > until:
                    raise
                time.sleep(0.005)
        self.stream.setsockopt(socket.IPPROTO_TCP, socket.TCP_NODELAY, 1)

    def __enter__(self) -> "Client":
        return self

    def __exit__(self, *_: object) -> None:
        self.stream.close()

    def send(self, text: bytes) -> None:
        """Sends these bytes, if the session is not over."""
        with contextlib.suppress(ConnectionError):
            self.stream.sendall(text)

    def line(self) -> str:
        """The next line that is answered; "" where the session is over. Raises where nothing comes."""
        told = b""
        with contextlib.suppress(ConnectionError):
            while not told.endswith(b"\n") and (byte := self.stream.recv(1)):
                told += byte
        return told.decode().rstrip("\n")

    def ask(self, line: str) -> str:
        """What the line is answered; "" where the session is over."""
        self.send(line.encode() + b"\n")
        return self.line()

    def rest(self) -> str:
        """All that is answered up to the end of the session. Raises where it does not end."""
        told = b""
        with contextlib.suppress(ConnectionError):
            while part := self.stream.recv(65_536):
                told += part
        return told.decode()

    def at_last(self, line: str, answer: str) -> bool:
        """Whether the line is answered so in the end."""
        return at_last(lambda: self.ask(line) == answer)


class Ring:
    """A ring in a temporary folder, and the `ringd` that serves it. Ended, it may be started again with what it held.

    `words` are those of `ringd` behind `--settings`; with `has_status` `--status` stands there too. `settings` has further lines.
    `environment` are further variables of the program."""

    def __init__(self, *words: str, nodes: int = 3, capacity: int = 65_536, has_status: bool = False, settings: str = "",
                 environment: dict[str, str] | None = None) -> None:
        require(RINGD)
        self.words, self.nodes, self.capacity, self.has_status, self.further = words, nodes, capacity, has_status, settings
        self.environment = environment or {}
        self.folder = tempfile.mkdtemp(prefix="ring-")
        self.dir = os.path.join(self.folder, "ring")
        os.mkdir(self.dir)
        # Kept for it while it is away.
        self.ports: "Ports | None" = None
        self.process: "subprocess.Popen[bytes] | None" = None

    def __enter__(self) -> "Ring":
        self.start()
        return self

    def __exit__(self, *_: object) -> None:
        self.remove()

    @property
    def port(self) -> int:
        """That of node 1; 0 before it was started."""
        return self.ports.first if self.ports else 0

    @property
    def status(self) -> int:
        """The port at which it tells of itself."""
        return self.port + self.nodes

    def port_of(self, node: int) -> int:
        return self.port + node - 1

    def command(self, *words: str) -> list[str]:
        """The words that run `ringd` on these settings, which are written."""
        path = os.path.join(self.folder, "ring.toml")
        text = f'nodes = {self.nodes}\ndir = "{self.dir}"\nport = {self.port}\ncapacity = {self.capacity}\n{self.further}'
        pathlib.Path(path).write_text(text, encoding="ascii")
        return [RINGD, "--settings", path, *words]

    def path(self, name: str) -> str:
        """That of what the program tells, `out` or `err`."""
        return os.path.join(self.folder, name)

    def told(self, name: str = "err") -> str:
        """What it has told on standard error by now, or on standard output, `out`."""
        return pathlib.Path(self.path(name)).read_text(encoding="utf-8", errors="replace")

    def spawn(self) -> None:
        """Starts it, and waits for nothing."""
        words = [*self.words, *(["--status", str(self.status)] if self.has_status else [])]
        with open(self.path("out"), "wb") as out, open(self.path("err"), "wb") as err:
            self.process = subprocess.Popen(self.command(*words), stdin=subprocess.DEVNULL, stdout=out, stderr=err,
                                            env={**os.environ, **self.environment})

    def is_over(self) -> bool:
        """Whether the program ended."""
        return self.process is None or self.process.poll() is not None

    def hold_ports(self) -> None:
        """Draws its ports, where it has none yet."""
        self.ports = self.ports or Ports(self.nodes + self.has_status)

    def start(self) -> None:
        """Starts it, at ports that nobody uses, and waits until it serves or ends. Raises where it serves in no case."""
        for _ in range(20):
            self.hold_ports()
            self.spawn()
            at_last(lambda: "serving\n" in self.told("out") or self.is_over())
            if not (self.is_over() and "cannot be used" in self.told()):
                break
            self.let_ports_go()
        else:
            raise RuntimeError("no free ports")
        if "serving\n" not in self.told("out") and not self.is_over():
            self.remove()
            raise RuntimeError("ringd does not serve")

    def end(self) -> int:
        """Its status, once it ended by itself. Raises where it does not end."""
        assert self.process is not None
        try:
            return self.process.wait(PATIENCE)
        except subprocess.TimeoutExpired:
            self.kill()
            raise

    def kill(self) -> None:
        """Ends it by KILL, if it runs."""
        if self.process is not None:
            self.process.kill()
            self.process.wait()

    def let_ports_go(self) -> None:
        if self.ports:
            self.ports.close()
        self.ports = None

    def remove(self) -> None:
        """Ends it, and removes its folder."""
        self.kill()
        self.let_ports_go()
        shutil.rmtree(self.folder, ignore_errors=True)

    def client(self, node: int = 1) -> Client:
        """A session at a node."""
        return Client(self.port_of(node), self.is_over)

    def asks(self, node: int, line: str) -> str:
        """What a line is answered in a session of its own, which ends in `bye`."""
        with self.client(node) as client:
            answer = client.ask(line)
            return answer if client.ask("bye") == "bye" else f"{answer}, and no bye"

    def get(self, target: str) -> tuple[int, str]:
        """What an operator is answered: the status, and the text."""
        try:
            with urllib.request.urlopen(f"http://{HOST}:{self.status}{target}", timeout=PATIENCE) as answer:
                return answer.status, answer.read().decode()
        except urllib.error.HTTPError as fault:
            with fault:
                return fault.code, fault.read().decode()

    def answer_to(self, head: bytes) -> bytes:
        """All that an operator is answered to these bytes, up to the end of the connection."""
        with Client(self.status, self.is_over) as operator:
            operator.send(head)
            return operator.rest().encode()

    def states(self) -> dict[str, Any]:
        """What `/status` tells."""
        return json.loads(self.get("/status")[1])

    def state(self, node: int) -> dict[str, Any]:
        """What it tells of a node."""
        return self.states()["nodes"][node - 1]

    def tells(self, target: str, text: str) -> bool:
        """Whether an operator is told this text in the end."""
        def is_told() -> bool:
            with contextlib.suppress(OSError):
                return text in self.get(target)[1]
            return False

        return at_last(is_told, pause=0.02)

    def says(self, text: str) -> bool:
        """Whether it tells this text on standard error in the end."""
        return at_last(lambda: text in self.told())


class RingTest(unittest.TestCase):
    """A test of rings that `ringd` serves."""

    @contextlib.contextmanager
    def serves(self, *words: str, status: int = 0, err: str | None = "", **how: object) -> Iterator[Ring]:
        """A ring as `Ring` makes it, which then ends by itself with this status, and has told this on standard error, if that is
        to be known."""
        with Ring(*words, **how) as ring:  # type: ignore[arg-type]
            yield ring
            ended = ring.end()
            self.assertEqual((status, ring.told() if err is None else err), (ended, ring.told()))

    def each(self, client: Client, *rows: tuple[str, str]) -> None:
        """Each line is answered so."""
        for line, answer in rows:
            self.assertEqual(answer, client.ask(line), line)

    def finish(self, ring: Ring, node: int, count: int = 1) -> None:
        """So many sessions at a node, each of one question of a group that nobody stood for."""
        for _ in range(count):
            self.assertEqual("none", ring.asks(node, "who nobody 4"))


class RefusedTest(RingTest):
    """A test of rings of which calls of the system fail, or begin late. It is skipped where no compiler is."""
    library: str

    @classmethod
    def setUpClass(cls) -> None:
        folder = tempfile.mkdtemp(prefix="refuse-")
        cls.addClassCleanup(shutil.rmtree, folder, True)
        try:
            cls.library = build(folder)
        except NoCompiler as fault:
            raise unittest.SkipTest(str(fault)) from None

    def refuser(self) -> Refuser:
        """What orders the calls of one ring."""
        folder = tempfile.mkdtemp(prefix="orders-")
        self.addCleanup(shutil.rmtree, folder, True)
        return Refuser(folder, self.library)
