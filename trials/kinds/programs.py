"""The programs that are tried, and what each run of one is held to beside its answers."""
import json
import os
import random
import resource
import shutil
import signal
import socket
import subprocess
import sys
import tempfile
import time
from typing import NamedTuple

sys.path.insert(0, os.path.join(os.path.dirname(__file__), ".."))
from short import free_ports

SECONDS = 10
# The most memory, in KiB.
MOST = 64 * 1024


class Ended(NamedTuple):
    """How a run ended. `fault` says that it was ended by a signal, hung, or took too much memory."""
    status: int
    out: bytes
    err: bytes
    fault: str | None


class Programs:
    """The programs, and a folder for what they are given. Of unproved ones the memory is not looked at, and they are slow."""

    def __init__(self, ringd: str, ringctl: str, is_unproved: bool) -> None:
        self.ringd, self.ringctl, self.is_unproved = ringd, ringctl, is_unproved
        self.seconds = 60 if is_unproved else SECONDS
        self.folder = tempfile.mkdtemp(prefix="fuzz-")

    def path(self, name: str) -> str:
        return os.path.join(self.folder, name)

    def run(self, command: list[str | bytes], given: bytes) -> Ended:
        """Runs it on this input until it ends."""
        with open(self.path("in"), "wb") as file:
            file.write(given)
        with open(self.path("in"), "rb") as file, open(self.path("out"), "wb") as out, open(self.path("err"), "wb") as err:
            process = subprocess.Popen(command, stdin=file, stdout=out, stderr=err, cwd=self.folder)
            return self.ended(process, self.seconds)

    def ended(self, process: subprocess.Popen, seconds: float) -> Ended:
        """Waits until it ends, and kills it where it does not."""
        until, fault, wait = time.monotonic() + seconds, None, 0.0002
        while not (told := os.wait4(process.pid, os.WNOHANG))[0]:
            if fault is None and time.monotonic() > until:
                fault = f"no end within {seconds} s"
                os.kill(process.pid, signal.SIGKILL)
            time.sleep(wait)
            wait = min(2 * wait, 0.004)
        process.returncode = status = os.waitstatus_to_exitcode(told[1])
        if fault is None and status < 0:
            fault = f"ended by signal {-status}"
        # The system tells no less of a process than the most that this one had taken as it began.
        own = resource.getrusage(resource.RUSAGE_SELF).ru_maxrss
        if fault is None and not self.is_unproved and told[2].ru_maxrss > max(MOST, own):
            fault = f"{told[2].ru_maxrss} KiB of memory"
        with open(self.path("out"), "rb") as out, open(self.path("err"), "rb") as err:
            return Ended(status, out.read(), err.read(), fault)

    def close(self) -> None:
        shutil.rmtree(self.folder, ignore_errors=True)


class Server:
    """A `ringd` over a folder, in a process of its own, with a port of HTTP. `ended` where it does not serve."""

    def __init__(self, programs: Programs, ring: str, nodes: int, capacity: int, words: list[str]) -> None:
        self.programs = programs
        for _ in range(20):
            self.ended: Ended | None = None
            self.port = free_ports(nodes + 1)
            settings = f'nodes = {nodes}\ndir = "{ring}"\nport = {self.port}\ncapacity = {capacity}\n'
            with open(programs.path("settings"), "w", encoding="ascii") as file:
                file.write(settings)
            command = [programs.ringd, "--settings", programs.path("settings"), "--status", str(self.port + nodes), *words]
            with open(programs.path("out"), "wb") as out, open(programs.path("err"), "wb") as err:
                self.process = subprocess.Popen(command, stdin=subprocess.DEVNULL, stdout=out, stderr=err)
            self.status_port = self.port + nodes
            self.await_serving()
            if self.ended is None or b"cannot be used" not in self.ended.err:
                return

    def await_serving(self) -> None:
        until = time.monotonic() + self.programs.seconds
        while True:
            with open(self.programs.path("out"), "rb") as out:
                if b"serving\n" in out.read():
                    return
            if self.is_over() or time.monotonic() > until:
                self.ended = self.programs.ended(self.process, 0)
                return
            time.sleep(0.001)

    def is_over(self) -> bool:
        """Whether it ended by itself."""
        return os.waitid(os.P_PID, self.process.pid, os.WEXITED | os.WNOHANG | os.WNOWAIT) is not None

    def exchange(self, port: int, parts: list[bytes], pause: float = 0.0) -> bytes:
        """What is answered at the port to these bytes, sent in parts, until the other side ends."""
        with socket.create_connection(("127.0.0.1", port), self.programs.seconds) as connection:
            connection.setsockopt(socket.IPPROTO_TCP, socket.TCP_NODELAY, 1)
            answer = b""
            try:
                for part in parts:
                    connection.sendall(part)
                    time.sleep(pause)
                connection.shutdown(socket.SHUT_WR)
            except OSError:
                # It may have ended already.
                pass
            while part := connection.recv(65_536):
                answer += part
            return answer

    def status(self) -> list[dict]:
        """What `/status` tells of the nodes."""
        answer = self.exchange(self.status_port, [b"GET /status HTTP/1.1\r\n\r\n"])
        return json.loads(answer.partition(b"\r\n\r\n")[2])["nodes"]

    def rest(self) -> list[dict]:
        """Waits until no message is on its way and all inputs are durable. What `/status` tells then."""
        until = time.monotonic() + self.programs.seconds
        while time.monotonic() < until:
            nodes = self.status()
            told = [(node["messages"], node["journal"]) for node in nodes]
            behind = told[1:] + told[:1]
            if all(own["sent"] == to["taken"] and not own["waiting"] and journal["inputs"] == journal["durable"]
                   for (own, journal), (to, _) in zip(told, behind)):
                return nodes
            time.sleep(0.001)
        raise TimeoutError(f"the ring does not come to rest within {self.programs.seconds} s: {told}")

    def kill(self) -> str | None:
        """Ends it. What was wrong with it until then."""
        if self.ended is not None:
            return None
        with open(f"/proc/{self.process.pid}/status", encoding="ascii") as file:
            lines = dict(line.split(":", 1) for line in file if ":" in line)
        most = int(lines.get("VmHWM", "0 kB").split()[0])
        is_there = not self.is_over()
        os.kill(self.process.pid, signal.SIGKILL)
        self.ended = self.programs.ended(self.process, self.programs.seconds)
        if not is_there:
            return f"it ended by itself: {self.ended}"
        return f"{most} KiB of memory" if not self.programs.is_unproved and most > MOST else None


class Kind:
    """What is tried: cases, each a list of parts of which some may be left out."""

    name = ""

    def __init__(self, programs: Programs) -> None:
        self.programs = programs

    def case(self, rng: random.Random) -> list:
        raise NotImplementedError

    def differs(self, case: list) -> str | None:
        """Runs it. What differs from what it is held against."""
        raise NotImplementedError

    def close(self) -> str | None:
        """Ends what it tries. What was wrong with that until then."""
        return None
