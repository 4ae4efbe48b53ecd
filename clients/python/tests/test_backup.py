"""Copies of a ring's folder, by a real ringd, and by programs that find each copy, or the first ones, not well."""
import os
import pathlib
import subprocess
import sys
import tempfile
import threading
import unittest

from cinoweta import AlreadyStands, CinowetaError, Ring
from cinoweta.backup import TRIES, NoCopy, backup

from .served import HERE, RINGD, Served, require

setUpModule = require


class BackupTest(unittest.TestCase):
    def setUp(self) -> None:
        folder = tempfile.TemporaryDirectory(prefix="cinoweta-")
        self.addCleanup(folder.cleanup)
        self.folder = pathlib.Path(folder.name)
        self.served = Served()
        self.addCleanup(self.served.end)
        self.ring = pathlib.Path(self.served.folder, "ring")

    def program(self, text: str) -> str:
        path = self.folder / "looks"
        path.write_text(f"#!/bin/sh\n{text}\n", encoding="ascii")
        path.chmod(0o755)
        return str(path)

    def restart(self, copy: pathlib.Path) -> None:
        """Serves the copy in the ring's place."""
        self.served.kill()
        self.ring.rename(self.folder / "old")
        copy.rename(self.ring)
        self.assertTrue(self.served.start())

    def test_a_copy_under_load_holds_what_was_answered_before(self) -> None:
        is_over = threading.Event()
        answered = [0, 0, 0]

        def elect(node: int) -> None:
            with Ring.parse(self.served.ports) as ring:
                while not is_over.is_set():
                    ring.stand(f"group-{node}", answered[node - 1] + 1, node, node)
                    answered[node - 1] += 1

        threads = [threading.Thread(target=elect, args=(node,)) for node in (1, 2, 3)]
        for thread in threads:
            thread.start()
        try:
            while min(answered) < 20:
                is_over.wait(0.01)
            before = list(answered)
            lines, tries = backup(str(self.ring), str(self.folder / "copy"), str(RINGD))
        finally:
            is_over.set()
            for thread in threads:
                thread.join()
        self.assertEqual([line.split()[:2] for line in lines[:3]], [["node", "1"], ["node", "2"], ["node", "3"]])
        self.assertLessEqual(tries, TRIES)
        self.assertEqual({path.name for path in (self.folder / "copy").iterdir()},
                         {"node-1.crj", "node-2.crj", "node-3.crj", "ring.id", "ring.made"})
        self.assertEqual((self.folder / "copy" / "ring.id").read_bytes(), (self.ring / "ring.id").read_bytes())
        self.restart(self.folder / "copy")
        with Ring.parse(self.served.ports) as ring:
            for node, terms in enumerate(before, 1):
                for term in range(1, terms + 1):
                    with self.assertRaises(CinowetaError):
                        ring.stand(f"group-{node}", term, 99, node)

    def test_the_command(self) -> None:
        with Ring.parse(self.served.ports) as ring:
            ring.stand("red", 1, 7)
        words = [sys.executable, "-m", "cinoweta", "backup", "--ringd", str(RINGD), str(self.ring), str(self.folder / "copy")]
        ended = subprocess.run(words, cwd=HERE.parent, capture_output=True, text=True, timeout=60)
        self.assertEqual((ended.returncode, ended.stderr), (0, ""))
        self.assertRegex(ended.stdout, r"\Anode 1 inputs \d+ behind 0\n(?s:.*)\ncopied 3 nodes, try 1\n\Z")
        self.restart(self.folder / "copy")
        with Ring.parse(self.served.ports) as ring, self.assertRaises(AlreadyStands):
            ring.stand("red", 1, 8)

    def test_ten_tries_and_then_nothing_is_left(self) -> None:
        looks = self.program(f"echo x >> {self.folder}/count; echo nodes 1 and 2 do not fit >&2; exit 1")
        with self.assertRaisesRegex(NoCopy, "nodes 1 and 2 do not fit"):
            backup(str(self.ring), str(self.folder / "copy"), looks)
        self.assertEqual((self.folder / "count").read_text(), "x\n" * TRIES)
        self.assertEqual({path.name for path in self.folder.iterdir()}, {"looks", "count"})

    def test_a_later_try_is_taken(self) -> None:
        looks = self.program(f'echo x >> {self.folder}/count; [ "$(wc -l < {self.folder}/count)" = 3 ]')
        self.assertEqual(backup(str(self.ring), str(self.folder / "copy"), looks), ([], 3))
        self.assertTrue((self.folder / "copy" / "ring.made").exists())

    def test_what_is_refused(self) -> None:
        os.mkdir(self.folder / "there")
        with self.assertRaises(FileExistsError):
            backup(str(self.ring), str(self.folder / "there"), str(RINGD))
        with self.assertRaises(FileNotFoundError):
            backup(str(self.ring), str(self.folder / "copy"), str(self.folder / "none"))
        with self.assertRaisesRegex(ValueError, "no folder of a ring"):
            backup(str(self.folder / "there"), str(self.folder / "copy"), str(RINGD))
        self.served.kill()
        (self.ring / "node-2.crj").unlink()
        with self.assertRaisesRegex(ValueError, "no folder of a ring"):
            backup(str(self.ring), str(self.folder / "copy"), str(RINGD))
        self.served.start()


if __name__ == "__main__":
    unittest.main()
