#!/usr/bin/env python3
"""What bash offers for the words of ringd, which RINGD names, or bin/ringd, and of cinoweta. `make clients` runs them."""
import os
import pathlib
import subprocess
import sys
import tempfile
import unittest

HERE = pathlib.Path(__file__).resolve().parent
CLIENT = HERE.parent / "clients" / "python"
sys.path.insert(0, str(CLIENT))
from tests.served import RINGD, require

setUpModule = require
SCRIPT = """source "$1"; shift
COMP_WORDS=("$@") COMP_CWORD=$(($# - 1))
_"$(basename "$1")" "$1"
printf '%s\\n' "${COMPREPLY[@]}"
"""


class CompletionTest(unittest.TestCase):
    def setUp(self) -> None:
        folder = tempfile.TemporaryDirectory()
        self.addCleanup(folder.cleanup)
        self.folder = pathlib.Path(folder.name)
        command = self.folder / "cinoweta"
        command.write_text(f'#!/bin/sh\nexec {sys.executable} -m cinoweta "$@"\n', encoding="ascii")
        command.chmod(0o755)
        (self.folder / "ringd").symlink_to(RINGD)

    def offered(self, program: str, *words: str) -> list[str]:
        path = HERE.parent / "packaging" / "completions.bash"
        ended = subprocess.run(["bash", "-c", SCRIPT, "bash", str(path), str(self.folder / program), *words], text=True,
                               capture_output=True, timeout=120, check=True, env={**os.environ, "PYTHONPATH": str(CLIENT)})
        self.assertEqual(ended.stderr, "")
        return ended.stdout.split()

    def test_ringd(self) -> None:
        self.assertEqual(self.offered("ringd", "--al"), ["--always"])
        self.assertIn("--status", self.offered("ringd", "--always", "--"))
        self.assertIn(str(self.folder / "ringd"), self.offered("ringd", "--settings", str(self.folder / "r")))

    def test_the_command(self) -> None:
        self.assertEqual(self.offered("cinoweta", "stan"), ["stand"])
        self.assertEqual({"lock", "leaders"} & {*self.offered("cinoweta", "l")}, {"lock", "leaders"})
        self.assertEqual(self.offered("cinoweta", "lock", "--acr"), ["--across-hosts"])
        self.assertEqual(self.offered("cinoweta", "siz"), ["sizing"])
        self.assertEqual(self.offered("cinoweta", "sizing", "--el"), ["--elections-a-minute"])
        self.assertNotIn("--across-hosts", self.offered("cinoweta", "--"))
        self.assertEqual(self.offered("cinoweta", "--ring", "7101-7103", "wat"), ["watch"])
        self.assertEqual(self.offered("cinoweta", "backup", str(self.folder / "cin")), [str(self.folder / "cinoweta")])


if __name__ == "__main__":
    unittest.main()
