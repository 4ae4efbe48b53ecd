"""How much `ringd` reads of settings, and what it tells where its output takes nothing."""
import os
import pathlib
import subprocess
import tempfile
import unittest

from programs import PATIENCE, RINGD, require

SETTINGS = 'nodes = 3\ndir = "a"\nport = 1\n'
UNREAD = "ringd: settings cannot be read\n"
NO_NODES = "ringd: setting nodes is missing\nringd: nodes is a number from 2 to 16\n"
UNWRITTEN = "ringd: output cannot be written\n"
MOST = 1_000_000


class StandardStreamsTest(unittest.TestCase):
    def setUp(self) -> None:
        require(RINGD)

    def run_on(self, settings: str, *words: str, out: int = subprocess.PIPE) -> "tuple[int, str]":
        """Runs it on settings that it reads from standard input: its status, and what it tells on standard error."""
        ended = subprocess.run([RINGD, *words], input=settings, stdout=out, stderr=subprocess.PIPE, text=True, timeout=PATIENCE, check=False)
        return ended.returncode, ended.stderr

    def test_settings_have_a_million_bytes_at_most(self) -> None:
        with tempfile.TemporaryDirectory(prefix="settings-") as folder:
            path = pathlib.Path(folder, "ring.toml")
            for count, told in ((MOST, NO_NODES), (MOST + 1, UNREAD)):
                text = "#" * count
                self.assertEqual((2, told), self.run_on(text), count)
                path.write_text(text, encoding="ascii")
                self.assertEqual((2, told), self.run_on("", "--settings", str(path)), count)

    def test_an_output_that_takes_nothing(self) -> None:
        with tempfile.NamedTemporaryFile(prefix="read-only-") as file, open(file.name, "rb") as unwritable, open("/dev/full", "wb") as full:
            for out in (unwritable, full):
                for words in ((), ("--version",), ("--help",)):
                    with self.subTest(out=out.name, words=words):
                        self.assertEqual((1, UNWRITTEN), self.run_on(SETTINGS, *words, out=out.fileno()))

    def test_an_output_that_nobody_reads(self) -> None:
        read, write = os.pipe()
        os.close(read)
        try:
            self.assertEqual((1, UNWRITTEN), self.run_on(SETTINGS, out=write))
        finally:
            os.close(write)


if __name__ == "__main__":
    unittest.main()
