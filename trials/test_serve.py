"""What a signal ends that ends `make serve`, where rt runs ringd."""
import os
import pathlib
import shutil
import signal
import subprocess
import tempfile
import time
import unittest
from collections.abc import Callable

from short import free_ports
# Of tests/, which short.py has Python look in.
from processes import is_there

ROOT = pathlib.Path(__file__).resolve().parent.parent
# It runs what stands for ringd below a program in a session of its own, as rt does, and tells its number.
RT = """#!/usr/bin/env bash
setsid bash -c 'sleep 1000 & echo $! > "$0.new"; mv "$0.new" "$0"; wait' "$SERVED" &
wait
"""
PATIENCE = 20.0


class ServeTest(unittest.TestCase):
    def setUp(self) -> None:
        self.tree = pathlib.Path(tempfile.mkdtemp(prefix="serve-"))
        self.addCleanup(shutil.rmtree, self.tree)
        for folder in ("bench", "examples", "crates/ringd", "bin"):
            (self.tree / folder).mkdir(parents=True)
        shutil.copy(ROOT / "Makefile", self.tree)
        shutil.copy(ROOT / "bench" / "serve.sh", self.tree / "bench")
        settings = f'nodes = 2\ndir = "ring-state"\nport = {free_ports(2)}\n'
        (self.tree / "examples" / "ring.toml").write_text(settings, "ascii")
        rt = self.tree / "bin" / "rt"
        rt.write_text(RT, "ascii")
        rt.chmod(0o755)
        self.served = self.tree / "served"

    def await_that(self, is_so: Callable[[], bool]) -> None:
        until = time.monotonic() + PATIENCE
        while not is_so():
            self.assertLess(time.monotonic(), until)
            time.sleep(0.02)

    def ends_by(self, words: list[str], number: int) -> None:
        """A signal to this program ends what rt runs."""
        path = f"{self.tree / 'bin'}:{os.environ['PATH']}"
        serving = subprocess.Popen(words, cwd=self.tree, env={**os.environ, "PATH": path, "SERVED": str(self.served)},
                                   stdin=subprocess.DEVNULL, stdout=subprocess.DEVNULL, stderr=subprocess.DEVNULL)
        ringd = 0
        try:
            self.await_that(self.served.exists)
            ringd = int(self.served.read_text("ascii"))
            self.assertTrue(is_there(ringd))
            serving.send_signal(number)
            serving.wait(PATIENCE)
            self.await_that(lambda: not is_there(ringd))
        finally:
            serving.kill()
            serving.wait()
            if ringd and is_there(ringd):
                os.kill(ringd, signal.SIGKILL)

    def test_term_to_make(self) -> None:
        self.ends_by(["make", "serve"], signal.SIGTERM)

    def test_hangup(self) -> None:
        self.ends_by(["bench/serve.sh"], signal.SIGHUP)


if __name__ == "__main__":
    unittest.main()
