#!/usr/bin/env python3
"""What signals do to ringd, which RINGD names, or bin/ringd: each ends it as a kill does. `make clients` runs them."""
import json
import os
import pathlib
import resource
import shutil
import signal
import socket
import subprocess
import sys
import time
import unittest

HERE = pathlib.Path(__file__).resolve().parent
sys.path[:0] = [str(HERE), str(HERE.parent / "clients" / "python")]
from cinoweta import AlreadyStands, Ring
from tests.clock import PATIENCE, took, tried
from tests.served import RINGD, Served, require

setUpModule = require


def ask(port: int, line: str) -> str:
    """The answer to a line, or "" where the session ends without one."""
    try:
        with socket.create_connection(("127.0.0.1", port), PATIENCE) as connection:
            connection.sendall(line.encode() + b"\n")
            return connection.makefile().readline()
    except ConnectionError:
        return ""


class SignalTest(unittest.TestCase):
    def setUp(self) -> None:
        # Who runs this may ignore some, as behind nohup, and what it starts inherits that.
        for number in (signal.SIGTERM, signal.SIGINT, signal.SIGHUP):
            self.addCleanup(signal.signal, number, signal.signal(number, signal.SIG_DFL))
        self.served = Served("--doors", "2")
        self.addCleanup(self.served.end)

    def holds_after(self, term: int) -> None:
        """What was answered is there behind a start."""
        self.served.process.stdout.close()
        self.assertTrue(self.served.start())
        with Ring.parse(self.served.ports) as ring, self.assertRaises(AlreadyStands):
            ring.stand("red", term, 2)

    @tried
    def test_each_of_them_ends_it_at_once(self) -> None:
        for term, number in enumerate((signal.SIGTERM, signal.SIGINT, signal.SIGHUP), 1):
            self.assertEqual(ask(self.served.first, f"stand red {term} 1"), "stood\n")
            begin = time.monotonic()
            self.served.process.send_signal(number)
            self.assertEqual(self.served.process.wait(timeout=PATIENCE), -number)
            took(begin, 2.0, what=number)
            self.holds_after(term)

    def test_a_limit_of_files_below_what_it_writes_ends_it(self) -> None:
        self.assertEqual(ask(self.served.first, "stand red 1 1"), "stood\n")
        resource.prlimit(self.served.process.pid, resource.RLIMIT_FSIZE, (64, resource.RLIM_INFINITY))
        self.assertEqual(ask(self.served.first, "stand red 2 1"), "")
        self.assertEqual(self.served.process.wait(timeout=PATIENCE), -signal.SIGXFSZ)
        self.holds_after(1)


@unittest.skipUnless(os.geteuid() == 0 and shutil.which("unshare"), "for want of root, unshare")
class ProcessOneTest(unittest.TestCase):
    """As process 1 of a container it is deaf, but for KILL, and an init before it is not."""

    def setUp(self) -> None:
        # Made by a start of its own, whose ports are free then.
        self.served = Served("--doors", "2")
        self.addCleanup(self.served.end)
        self.served.kill()

    def start(self, *words: str) -> "subprocess.Popen[str]":
        words = ("unshare", "--pid", "--fork", "--kill-child", *words)
        process = subprocess.Popen(words, stdout=subprocess.PIPE, stderr=subprocess.DEVNULL, text=True)
        self.addCleanup(process.stdout.close)
        self.addCleanup(process.wait)
        self.addCleanup(process.kill)
        self.assertIn("serving\n", iter(process.stdout.readline, ""))
        return process

    def words_of_the_image(self) -> list[str]:
        """What process 1 of the image is started with, for the program and the ring that are here."""
        lines = (HERE / "Containerfile").read_text(encoding="ascii").splitlines()
        parts = [line.split(" ", 1)[1] for line in lines if line.startswith(("ENTRYPOINT ", "CMD "))]
        here = {"ringd": str(RINGD), "/etc/ringd.toml": f"{self.served.folder}/ring.toml", "7100": str(self.served.status)}
        return [here.get(word, word) for part in parts for word in json.loads(part)]

    def first(self, process: "subprocess.Popen[str]") -> int:
        """Process 1 of the namespace, as it is called here."""
        path = pathlib.Path(f"/proc/{process.pid}/task/{process.pid}/children")
        return int(path.read_text(encoding="ascii").split()[0])

    def test_it_ignores_all_but_a_kill(self) -> None:
        process = self.start(str(RINGD), "--settings", f"{self.served.folder}/ring.toml", "--always", "--doors", "2")
        for number in (signal.SIGTERM, signal.SIGINT, signal.SIGHUP):
            os.kill(self.first(process), number)
        time.sleep(0.5)
        self.assertEqual(ask(self.served.first, "stand red 1 1"), "stood\n")
        # XFSZ too: the write is refused, and the node fails.
        resource.prlimit(self.first(process), resource.RLIMIT_FSIZE, (64, resource.RLIM_INFINITY))
        self.assertEqual(ask(self.served.first, "stand red 2 1"), "no 9 failed\n")
        self.assertIsNone(process.poll())
        os.kill(self.first(process), signal.SIGKILL)
        process.wait(timeout=PATIENCE)

    @unittest.skipUnless(shutil.which("tini"), "for want of tini")
    def test_the_image_has_an_init_that_hands_the_signal_on(self) -> None:
        words = self.words_of_the_image()
        self.assertIn("--existing", words)
        process = self.start(*words)
        self.assertEqual(ask(self.served.first, "stand red 1 1"), "stood\n")
        os.kill(self.first(process), signal.SIGTERM)
        # As a shell has it.
        self.assertEqual(process.wait(timeout=PATIENCE), 128 + signal.SIGTERM)


if __name__ == "__main__":
    unittest.main()
