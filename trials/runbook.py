#!/usr/bin/env python3
"""Runs the commands of the runbook in docs/OPERATING.md, as they stand there, from top to bottom.

runbook.py [PACKAGE.deb]

As root: the package, or what packaging/deb.sh makes of bin/ringd where none is named, is installed in a systemd that
unit.sh boots. There each line of the runbook's blocks is a step of one shell, which has to end with 0; behind some of
them stands what they have to have done. The last line is `steps N faults F`. Status 0 where F is 0, 1 else, 2 where it
can't be tried.
"""
import os
import pathlib
import re
import shlex
import subprocess
import sys
import tempfile

HERE = pathlib.Path(__file__).resolve().parent
PAGE = HERE.parent / "docs" / "OPERATING.md"
SECTION = "## Runbook\n"
# Behind the commands that begin so: what they printed, or what is there then.
DONE = {
    "systemctl enable": "systemctl is-active ringd && curl -fsS http://127.0.0.1:7100/health | grep -x well",
    "cinoweta campaign": "grep '^term 1 leader' /tmp/out",
    "cinoweta status": "grep -x well /tmp/out",
    "cinoweta backup": "grep -x 'copied 3 nodes, try 1' /tmp/out && test -s /var/backups/ring/node-1.crj",
    "cinoweta leaders >": "grep '^jobs term 1 ' /var/backups/leaders",
    "cinoweta raise --above": "test \"$(cinoweta latest jobs | cut -d' ' -f2)\" = 2",
    "cinoweta raise --by": "for node in 1 2 3; do cinoweta latest jobs --node $node | grep '^term 1002 ' || return 1; done",
    "cinoweta move": "grep '^jobs term 1003 ' /tmp/out && grep -x 'moved 1' /tmp/out",
    "mv /var/lib/ringd/state /var/lib/ringd/old": "test -e /var/lib/ringd/state/ring.made",
    "runuser -u ringd -- env -C /var/lib/ringd ringd --settings /etc/ringd.toml --check": "grep -E '^(audit|dropped) ' /tmp/out",
}
SHELL = """steps=0 faults=0
run() {
    steps=$((steps + 1))
    if eval "$1" > /tmp/out 2>&1 && { [ -z "$2" ] || eval "$2" > /tmp/more 2>&1; }; then
        echo "ok: $1"
    else
        faults=$((faults + 1))
        echo "FAULT: $1"
        tail -n 3 /tmp/out /tmp/more 2> /dev/null
    fi
}
"""


def commands(page: str) -> list[str]:
    """The lines of the section's blocks."""
    section = page[page.index(SECTION):]
    section = section[:section.index("\n## ", len(SECTION))]
    return [line.strip() for line in section.splitlines() if re.match(r" {4}\S", line)]


def script(lines: list[str]) -> str:
    """The shell's, or `ValueError` where the runbook has no longer what is looked at."""
    missing = [begin for begin in DONE if not any(line.startswith(begin) for line in lines)]
    if missing:
        raise ValueError(f"the runbook has no command that begins with {missing[0]!r}")
    steps = []
    for line in lines:
        done = max((begin for begin in DONE if line.startswith(begin)), key=len, default=None)
        steps.append(f"run {shlex.quote(line)} {shlex.quote(DONE[done] if done else '')}\n")
    # At the end the ring serves what was moved.
    end = "run 'cinoweta status' \"test $(cinoweta latest jobs | cut -d' ' -f2) = 1003\"\n"
    return "#!/bin/bash\n" + SHELL + "".join(steps) + end + 'echo "steps $steps faults $faults"\n'


def main() -> int:
    if len(sys.argv) > 2:
        print("runbook.py [PACKAGE.deb]", file=sys.stderr)
        return 2
    # not in /tmp, which the system that is booted has of its own
    with tempfile.TemporaryDirectory(dir=HERE.parent / "bin") as folder:
        package = sys.argv[1] if len(sys.argv) == 2 else subprocess.run(
            [HERE.parent / "packaging" / "deb.sh", folder], capture_output=True, text=True, check=True).stdout.strip()
        steps = pathlib.Path(folder, "steps.sh")
        steps.write_text(script(commands(PAGE.read_text(encoding="utf-8"))), encoding="utf-8")
        steps.chmod(0o755)
        return subprocess.run([HERE / "unit.sh", package], env={**os.environ, "STEPS": str(steps)}, check=False).returncode


if __name__ == "__main__":
    sys.exit(main())
