"""A ring of a real ringd, in a temporary folder: the program of RINGD, or bin/ringd."""
import os
import pathlib
import shutil
import subprocess
import sys
import tempfile

HERE = pathlib.Path(__file__).resolve().parent
sys.path.append(str(HERE.parents[2] / "tests"))
from ports import Ports

RINGD = pathlib.Path(os.environ.get("RINGD", HERE.parents[2] / "bin" / "ringd")).resolve()


def require() -> None:
    """Raises where there is no ringd."""
    if not os.access(RINGD, os.X_OK):
        raise RuntimeError(f"{RINGD} is not there: make ringd builds it, and RINGD names another one")


class Served:
    """Three nodes. Killed, they may be started again at the same ports and with what they held."""

    def __init__(self, *words: str, capacity: int = 65_536) -> None:
        self.words, self.capacity = words or ("--doors", "4"), capacity
        self.folder = tempfile.mkdtemp(prefix="cinoweta-")
        os.mkdir(f"{self.folder}/ring")
        self.process: "subprocess.Popen[str] | None" = None
        for _ in range(20):
            # Kept for it while it is away.
            self.kept = Ports(4)
            self.first = self.kept.first
            if self.start():
                return
            self.kill()
            self.kept.close()
        self.end()
        raise RuntimeError("ringd does not serve")

    def start(self) -> bool:
        """Whether it serves: not where a port is in use."""
        settings = f"{self.folder}/ring.toml"
        text = f'nodes = 3\ndir = "{self.folder}/ring"\nport = {self.first}\ncapacity = {self.capacity}\n'
        pathlib.Path(settings).write_text(text, encoding="ascii")
        words = ["--settings", settings, "--always", "--status", str(self.status), *self.words]
        self.process = subprocess.Popen([str(RINGD), *words], stdout=subprocess.PIPE, stderr=subprocess.DEVNULL,
                                        text=True)
        return "serving\n" in iter(self.process.stdout.readline, "")

    def kill(self) -> None:
        self.process.kill()
        self.process.wait()
        self.process.stdout.close()

    def end(self) -> None:
        self.kill()
        self.kept.close()
        shutil.rmtree(self.folder, ignore_errors=True)

    @property
    def status(self) -> int:
        """The port where it tells of itself."""
        return self.first + 3

    @property
    def ports(self) -> str:
        return f"{self.first}-{self.first + 2}"

    def command(self, *words: str) -> list[str]:
        """The words that run the command on this ring."""
        return [sys.executable, "-m", "cinoweta", "--ring", self.ports, *words]

    def run(self, *words: str) -> subprocess.CompletedProcess[str]:
        return subprocess.run(self.command(*words), cwd=HERE.parent, capture_output=True, text=True, timeout=60)
