#!/usr/bin/env python3
"""What kubernetes.yml has run, beside ringd, which RINGD names, or bin/ringd. `make clients` runs them."""
import json
import os
import pathlib
import re
import shutil
import subprocess
import sys
import tempfile
import textwrap
import unittest
import urllib.request

HERE = pathlib.Path(__file__).resolve().parent
sys.path.insert(0, str(HERE.parent / "clients" / "python"))
from tests.served import RINGD, Served, require

setUpModule = require
TEXT = (HERE / "kubernetes.yml").read_text(encoding="utf-8")


def block(name: str) -> str:
    """The text behind `NAME: |`."""
    return textwrap.dedent(re.search(rf"^  {re.escape(name)}: \|\n((?:    .*\n)+)", TEXT, re.M)[1])


class KubernetesTest(unittest.TestCase):
    def setUp(self) -> None:
        self.folder = pathlib.Path(tempfile.mkdtemp(prefix="cinoweta-"))
        self.addCleanup(shutil.rmtree, self.folder)
        (self.folder / "ringd.toml").write_text(block("ringd.toml"), encoding="ascii")
        (self.folder / "make.sh").write_text(block("make.sh").replace("/etc/ringd.toml", f"{self.folder}/ringd.toml"), encoding="ascii")
        (self.folder / "ringd").symlink_to(RINGD)
        self.volume = self.folder / "volume"
        self.volume.mkdir()

    def make(self, begin: str) -> subprocess.CompletedProcess[str]:
        environment = {**os.environ, "BEGIN": begin, "PATH": f"{self.folder}:{os.environ['PATH']}"}
        return subprocess.run(["sh", str(self.folder / "make.sh")], cwd=self.volume, env=environment, text=True,
                              capture_output=True, timeout=120)

    def test_a_volume_that_lost_its_ring_is_not_begun(self) -> None:
        ended = self.make("no")
        self.assertEqual(ended.returncode, 1)
        self.assertIn("no ring on this volume", ended.stderr)
        self.assertEqual([*self.volume.iterdir()], [])
        self.assertEqual(self.make("yes").returncode, 0)
        made = {path.name: path.read_bytes() for path in (self.volume / "state").iterdir()}
        self.assertEqual(set(made), {"node-1.crj", "node-2.crj", "node-3.crj", "ring.id", "ring.made"})
        for begin in ("no", "yes"):
            self.assertEqual(self.make(begin).returncode, 0)
            self.assertEqual({path.name: path.read_bytes() for path in (self.volume / "state").iterdir()}, made)

    def test_no_other_volume_is_mounted_over_the_ring(self) -> None:
        # A runtime mounts an empty one for each VOLUME of an image that is no mountPath to the letter.
        self.assertNotRegex((HERE / "Containerfile").read_text(encoding="utf-8"), r"(?m)^VOLUME")

    def test_the_words_are_taken_and_need_the_ring(self) -> None:
        words = json.loads(re.search(r"args: (\[.*\])", TEXT)[1])
        ended = subprocess.run([RINGD, "--settings", str(self.folder / "ringd.toml"), *words], cwd=self.volume, text=True,
                               capture_output=True, timeout=120)
        # The words are taken, and of a folder that is not there it makes none.
        self.assertEqual(ended.returncode, 1)
        self.assertIn("node 1: device 1", ended.stderr)
        self.assertIn("--existing", words)

    def test_the_ports_are_those_of_the_settings(self) -> None:
        port, nodes = (int(re.search(rf"^{key} = (\d+)", block("ringd.toml"), re.M)[1]) for key in ("port", "nodes"))
        named = {int(found) for found in re.findall(r"containerPort: (\d+)", TEXT)}
        self.assertEqual(named, {port - 1, *range(port, port + nodes)})
        self.assertIn('"--status", "7100"', TEXT)

    def test_the_probes_ask_what_is_told(self) -> None:
        probes = dict(re.findall(r"(\w+)Probe: \{httpGet: \{path: (/\w+), port: 7100\}", TEXT))
        self.assertEqual(probes, {"startup": "/live", "liveness": "/live", "readiness": "/ready"})
        ring = Served()
        self.addCleanup(ring.end)
        for path in probes.values():
            with urllib.request.urlopen(f"http://127.0.0.1:{ring.status}{path}", timeout=10) as answer:
                self.assertEqual((answer.status, answer.read()), (200, f"{path[1:]}\n".encode()))


if __name__ == "__main__":
    unittest.main()
