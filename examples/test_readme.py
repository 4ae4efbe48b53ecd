#!/usr/bin/env python3
"""Tests of README.md: its lines of Python, as they stand but for the ports, in two copies beside a real ringd, which RINGD
names, or bin/ringd. `make clients` runs them."""
import os
import pathlib
import re
import sqlite3
import subprocess
import sys
import tempfile
import time
import unittest

HERE = pathlib.Path(__file__).resolve().parent
CLIENT = HERE.parent / "clients" / "python"
sys.path[:0] = [str(CLIENT)]
from tests.served import Served, require

LINES = re.search(r"```python\n(.*?)```", (HERE.parent / "README.md").read_text(encoding="utf-8"), re.S)[1]
RING = "Ring(7101, 7103)"
setUpModule = require


class ReadmeTest(unittest.TestCase):
    def setUp(self) -> None:
        self.served = Served("--doors", "4")
        self.addCleanup(self.served.end)
        self.folder = tempfile.TemporaryDirectory()
        self.addCleanup(self.folder.cleanup)

    def start(self) -> "subprocess.Popen[bytes]":
        self.assertEqual(LINES.count(RING), 1)
        lines = LINES.replace(RING, f"Ring({self.served.first}, {self.served.first + 2})")
        process = subprocess.Popen([sys.executable, "-c", lines], cwd=self.folder.name, env={**os.environ, "PYTHONPATH": str(CLIENT)})
        self.addCleanup(process.wait)
        self.addCleanup(process.kill)
        return process

    def terms(self) -> list[int]:
        """The terms of what was written, in the order in which it was."""
        try:
            return [term for term, in sqlite3.connect(f"{self.folder.name}/jobs.db").execute("select term from done order by rowid")]
        except sqlite3.OperationalError:
            return []

    def await_terms(self, count: int) -> list[int]:
        until = time.monotonic() + 30.0
        while len(set(self.terms())) < count and time.monotonic() < until:
            time.sleep(0.1)
        return self.terms()

    def test_one_copy_writes_at_a_time(self) -> None:
        first = self.start()
        term = self.await_terms(1)[0]
        second = self.start()
        time.sleep(3.0)
        self.assertEqual(set(self.terms()), {term})
        first.kill()
        terms = self.await_terms(2)
        self.assertEqual(sorted(set(terms)), [term, term + 1])
        self.assertEqual(terms, sorted(terms))
        self.assertIsNone(second.poll())

    def test_a_late_write_is_turned_away(self) -> None:
        process = self.start()
        term = self.await_terms(1)[0]
        with sqlite3.connect(f"{self.folder.name}/jobs.db") as store:
            store.execute("insert into done values (?, 0)", [term + 1])
        self.assertEqual(process.wait(timeout=10.0), 0)
        self.assertEqual(self.terms()[-1], term + 1)


if __name__ == "__main__":
    unittest.main()
