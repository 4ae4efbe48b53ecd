"""The package is installed by pip, without an index."""
import os
import pathlib
import subprocess
import sys
import tarfile
import tempfile
import unittest

import cinoweta

FOLDER = pathlib.Path(__file__).resolve().parents[1]


def files(folder: pathlib.Path) -> set[str]:
    return {path.name for path in folder.iterdir() if path.is_file()}


class InstallTest(unittest.TestCase):
    def test_it_is_installed_and_runs(self) -> None:
        with tempfile.TemporaryDirectory() as target:
            command = [sys.executable, "-m", "pip", "install", "-q", "--no-index", "--disable-pip-version-check",
                       "--root-user-action=ignore", "--target", target, str(FOLDER)]
            subprocess.run(command, check=True, timeout=120)
            ended = subprocess.run([f"{target}/bin/cinoweta", "--help"], env={**os.environ, "PYTHONPATH": target},
                                   capture_output=True, text=True, timeout=30, check=True)
            self.assertIn("CINOWETA_TERM", ended.stdout)
            version = subprocess.run([f"{target}/bin/cinoweta", "--version"], env={**os.environ, "PYTHONPATH": target},
                                     capture_output=True, text=True, timeout=30, check=True)
            self.assertEqual(version.stdout, f"cinoweta {cinoweta.__version__}\n")
            self.assertTrue(pathlib.Path(target, f"cinoweta-{cinoweta.__version__}.dist-info").is_dir())
            installed = files(pathlib.Path(target, "cinoweta"))
            self.assertEqual(installed, files(FOLDER / "cinoweta"))
            self.assertIn("py.typed", installed)

    def test_the_source_archive_has_the_same(self) -> None:
        with tempfile.TemporaryDirectory() as target:
            build = "import sys, wheel_backend; print(wheel_backend.build_sdist(sys.argv[1]))"
            built = subprocess.run([sys.executable, "-c", build, target], cwd=FOLDER, capture_output=True, text=True,
                                   timeout=30, check=True).stdout.strip()
            with tarfile.open(pathlib.Path(target, built)) as archive:
                paths = {pathlib.PurePath(name) for name in archive.getnames()}
            self.assertEqual({path.name for path in paths if path.parent.name == "cinoweta"}, files(FOLDER / "cinoweta"))


if __name__ == "__main__":
    unittest.main()
