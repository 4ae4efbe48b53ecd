#!/usr/bin/env python3
"""Loses the host of ringd, which has its folder on a disk of the network, has another host go on with it, and holds that to
all that any client was told.

lost_host.py [--ringd PATH] [--rounds N] [--seed S] [--capacity C] [--kept-alive]

The words are those of kill.py, and so are the rounds and what is checked of each answer, of a ring of three nodes; N is 20 by
default. As root: the hosts are network namespaces. The first and the second are for ringd; the third has an image, which nbdkit
serves to one of these at a time; on the fourth are clients. A host that begins has the disk as a file by nbdfuse, a loop device
on that, and an ext4 on this; so a sync of ringd comes back once the third host was told to flush, and did.

Each node is asked by a client on its own host and by one on the fourth. In place of a kill the host is cut off from the network,
and goes on for a moment, while its own client asks: what was answered there counts too. Then it is fenced, as nbdkit ends that
served it, and the other host mounts the disk, starts ringd on it with --existing, and is asked. In half of the rounds, by chance,
the host that was cut off is lost before that. In the others, and in all with --kept-alive, it lives on, until the other one
serves: then it is joined to the network again, and asked to stand for a term of a group of its own at each node. `stood` would
be a fault. Then it is lost too.

The last lines are those of kill.py, behind how many hosts were lost before and behind the next one's start, and how many Stands
were asked of those that had been fenced. Status 0 where there was no fault, 1 else, and 2 where it can't be tried."""
import argparse
import contextlib
import ctypes
import os
import pathlib
import random
import shutil
import socket
import subprocess
import sys
import time
from collections import Counter

HERE = pathlib.Path(__file__).resolve().parent
sys.path.insert(0, str(HERE))
from clients import Client
from hosts import Hosts
from kill import PATIENCE, Ended, Ring, Trial, number, run
from known import Question

NEEDS = ["ip", "bridge", "nsenter", "nbdkit", "nbdfuse", "mkfs.ext4", "losetup", "mount", "umount"]
# The hosts of ringd, of the image and of the clients.
FIRST, SECOND, STORAGE, ELSEWHERE = 1, 2, 3, 4
PORT, IMAGE = 10_809, 64 << 20
# For how long a host goes on that was cut off, at most, and a Stand is waited for that nothing may answer, in seconds.
GOES_ON, SILENT = 0.3, 1.0
# A connection is waited for so long.
CONNECTS = 15.0
NEW_NETWORK = 0x4000_0000
LIBC = ctypes.CDLL(None, use_errno=True)


def address(host: int) -> str:
    return f"10.77.1.{host}"


def on(hosts: Hosts, host: int) -> list[str]:
    """What starts a program there, which sees all mounts."""
    return ["nsenter", f"--net=/run/netns/{hosts.name(host)}"]


class Disk:
    """The image, and what serves it to one host."""

    def __init__(self, hosts: Hosts, folder: str) -> None:
        self.hosts, self.image = hosts, f"{folder}/image"
        self.server: "subprocess.Popen[bytes] | None" = None
        with open(self.image, "wb") as file:
            file.truncate(IMAGE)
        subprocess.run(["mkfs.ext4", "-q", "-F", self.image], check=True)

    def fence(self) -> None:
        """The host that has it can't write any more, whatever it believes."""
        if self.server is not None:
            self.server.kill()
            self.server.wait()
            self.server = None

    def attach(self) -> None:
        """It is there for the next host alone."""
        self.fence()
        words = ["nbdkit", "-f", "-i", address(STORAGE), "-p", str(PORT), "file", self.image]
        self.server = subprocess.Popen([*on(self.hosts, STORAGE), *words])


class Machine:
    """A host that may run ringd."""

    def __init__(self, hosts: Hosts, folder: str, host: int) -> None:
        self.hosts, self.host = hosts, host
        self.disk, self.at = f"{folder}/disk-{host}", f"{folder}/at-{host}"
        self.fuse: "subprocess.Popen[bytes] | None" = None
        self.loop = ""
        # Its ringd, while it lives on though it was cut off.
        self.left: "subprocess.Popen[bytes] | None" = None
        os.mkdir(self.disk)
        os.mkdir(self.at)

    def mount(self) -> None:
        until, uri = time.monotonic() + PATIENCE, f"nbd://{address(STORAGE)}:{PORT}"
        while not os.path.exists(f"{self.disk}/disk"):
            if time.monotonic() > until:
                raise Ended(f"host {self.host} gets no disk")
            if self.fuse is None or self.fuse.poll() is not None:
                words = [*on(self.hosts, self.host), "nbdfuse", f"{self.disk}/disk", uri]
                self.fuse = subprocess.Popen(words, stderr=subprocess.DEVNULL)
            time.sleep(0.05)
        told = subprocess.run(["losetup", "--find", "--show", f"{self.disk}/disk"], check=True, capture_output=True, text=True)
        self.loop = told.stdout.strip()
        subprocess.run(["mount", "-t", "ext4", self.loop, self.at], check=True)

    def lose(self, process: "subprocess.Popen[bytes] | None") -> None:
        """All that runs there ends at once, and nothing of what its memory has is written."""
        if process is not None:
            process.kill()
        if self.fuse is not None:
            self.fuse.kill()
            self.fuse.wait()
        if process is not None:
            process.wait()
        quiet = {"check": False, "stderr": subprocess.DEVNULL}
        subprocess.run(["umount", "-l", self.at], **quiet)
        if self.loop:
            subprocess.run(["losetup", "-d", self.loop], **quiet)
        subprocess.run(["umount", "-l", self.disk], **quiet)
        self.fuse, self.loop, self.left = None, "", None


class HostClient(Client):
    """A client on a host."""

    def __init__(self, client: Client, hosts: Hosts, host: int, to: str) -> None:
        super().__init__(client.known, client.node, client.port, client.again, client.rng, client.patience)
        self.namespace, self.to = hosts.name(host), to
        self.has_given_up = False

    def open(self) -> socket.socket:
        enter(self.namespace)
        connection = socket.create_connection((self.to, self.port), min(CONNECTS, self.patience))
        connection.settimeout(self.patience)
        return connection

    def exchange(self, line: str) -> str:
        if self.has_given_up:
            raise ConnectionError("it gave up")
        return super().exchange(line)

    def give_up(self) -> None:
        """Nothing comes any more, and no end of it."""
        self.has_given_up = True
        with contextlib.suppress(OSError, AttributeError):
            self.connection.shutdown(socket.SHUT_RDWR)


def enter(namespace: str) -> None:
    """This thread is on that host from now on."""
    with open(f"/run/netns/{namespace}", "rb") as file:
        if LIBC.setns(file.fileno(), NEW_NETWORK):
            raise OSError(ctypes.get_errno(), "setns")


class HostRing(Ring):
    """A ring whose folder lies on the disk."""

    def __init__(self, ringd: str, folder: str, capacity: int | None, rng: random.Random, hosts: Hosts) -> None:
        super().__init__(ringd, folder, 2, capacity, rng, nodes=3)
        self.hosts, self.disk = hosts, Disk(hosts, folder)
        self.machines = {host: Machine(hosts, folder, host) for host in (FIRST, SECOND)}
        self.host = SECOND
        self.is_made = False

    def machine(self) -> Machine:
        return self.machines[self.host]

    def start(self, rng: random.Random) -> "subprocess.Popen[bytes]":
        """Starts ringd on the other host than before, which alone has the disk from now on."""
        self.port = self.port or rng.randrange(20_000, 32_000)
        self.mount_again()
        machine = self.machine()
        os.makedirs(f"{machine.at}/ring", exist_ok=True)
        settings = f"{self.folder}/settings-{self.host}.toml"
        pathlib.Path(settings).write_text(f'nodes = {self.nodes}\ndir = "{machine.at}/ring"\nport = {self.port}\n'
                                          f"capacity = {self.capacity}\n", encoding="ascii")
        words = [*on(self.hosts, self.host), self.ringd, "--settings", settings, "--always", "--doors",
                  str(self.doors), "--listen", address(self.host), *(["--existing"] if self.is_made else [])]
        with open(os.path.join(self.folder, "err"), "wb") as err:
            return subprocess.Popen(words, stdin=subprocess.DEVNULL, stdout=subprocess.PIPE, stderr=err, bufsize=0)

    def mount_again(self) -> None:
        """The host that comes next mounts the disk."""
        self.host = FIRST + SECOND - self.host
        self.machine().lose(self.machine().left)
        self.hosts.join(self.host, True)
        self.disk.attach()
        self.machine().mount()

    def bytes_of(self, node: int) -> bytes:
        path = pathlib.Path(self.machine().at, "ring", f"node-{node}.crj")
        return path.read_bytes() if path.exists() else b""


class Losses(Trial):
    """Rounds, in each of which a host is lost."""

    def __init__(self, ringd: str, seed: int, capacity: int | None, hosts: Hosts, keeps: bool) -> None:
        super().__init__(ringd, seed, 2, capacity)
        self.hosts, self.keeps = hosts, keeps
        self.lost = self.fenced = 0
        # What was answered to Stands at hosts that had been fenced.
        self.late: Counter[str] = Counter()

    def client(self, ring: HostRing, node: int, door: int, again: list[Question], rng: random.Random) -> Client:
        client = super().client(ring, node, door, again, rng)
        return HostClient(client, self.hosts, ring.host if door == 0 else ELSEWHERE, address(ring.host))

    def start(self, ring: HostRing, kill_opening: bool) -> bool:
        serves = super().start(ring, kill_opening and ring.is_made)
        ring.is_made = True
        return serves

    def ask(self, ring: HostRing, kind: str) -> None:
        other = ring.machines[FIRST + SECOND - ring.host]
        if other.left is not None:
            self.hosts.join(other.host, True)
            self.ask_fenced(ring, other)
            other.lose(other.left)
        super().ask(ring, kind)

    def ask_fenced(self, ring: HostRing, machine: Machine) -> None:
        """Nothing that was fenced stands any more."""
        for node in range(1, ring.nodes + 1):
            client = HostClient(Client(ring.known, node, ring.port + node - 1, [], self.rng, SILENT), self.hosts, machine.host,
                                address(machine.host))
            answer = "nothing"
            with contextlib.suppress(OSError), client.open() as client.connection:
                answer = client.exchange(f"stand late{self.rounds} 1 1")
            self.late[answer] += 1
            if answer == "stood":
                ring.known.fault(f"node {node} of a host that was fenced stands")
        enter(self.hosts.name(ELSEWHERE))

    def end(self, ring: HostRing, clients: list[HostClient]) -> None:
        machine = ring.machine()
        self.hosts.join(machine.host, False)
        time.sleep(self.rng.uniform(0.0, GOES_ON))
        if self.keeps or self.rng.random() < 0.5:
            self.fenced += 1
            machine.left = self.process
            # This is what the round ends.
            self.process = subprocess.Popen(["true"], stdout=subprocess.PIPE)
        else:
            self.lost += 1
            machine.lose(self.process)
        for client in clients:
            client.give_up()

    def round(self, ring: HostRing, last: bool) -> None:
        super().round(ring, last)
        if ring.machine().left is None:
            ring.machine().lose(self.process)

    def ring(self, folder: str) -> HostRing:
        return HostRing(self.ringd, folder, self.capacity, self.rng, self.hosts)

    def course(self, ring: HostRing, rounds: int) -> None:
        try:
            super().course(ring, rounds)
            # What another look at the disk tells of them.
            ring.mount_again()
            self.checkpoints += ring.checkpoints()
        finally:
            for machine in ring.machines.values():
                machine.lose(machine.left)
            ring.disk.fence()

    def lacks(self) -> str:
        told = ", ".join(f"{count} of {answer!r}" for answer, count in self.late.items())
        print(f"lost before the next one's start {self.lost}, behind it {self.fenced}; answers of those that were fenced: {told or 'none'}")
        return "" if self.retired else "no term was retired"


def main() -> int:
    parser = argparse.ArgumentParser(description="Loses the host of ringd, and holds the next one to what it told.")
    parser.add_argument("--ringd", default=str(HERE.parent / "bin" / "ringd"), metavar="PATH")
    parser.add_argument("--rounds", type=number(1, 10_000), default=20, metavar="N")
    parser.add_argument("--seed", type=number(0, 2**63), default=random.randrange(1_000_000), metavar="S")
    parser.add_argument("--capacity", type=number(4_096, 1_048_576), metavar="C")
    parser.add_argument("--kept-alive", action="store_true")
    words = parser.parse_args()
    missing = [name for name in NEEDS if shutil.which(name) is None]
    if os.geteuid() != 0 or missing or not os.access(words.ringd, os.X_OK) or not os.path.exists("/dev/fuse"):
        print(f"lost_host.py: it takes root, /dev/fuse and a ringd{', and ' + ', '.join(missing) if missing else ''}", file=sys.stderr)
        return 2
    hosts = Hosts()
    trial = Losses(os.path.abspath(words.ringd), words.seed, words.capacity, hosts, words.kept_alive)
    try:
        hosts.make(ELSEWHERE)
        enter(hosts.name(ELSEWHERE))
        return run(trial, words.rounds)
    finally:
        hosts.end()


if __name__ == "__main__":
    sys.exit(main())
