#!/usr/bin/env python3
"""Draws the run of a ring, a column for each node.

picture.py SCRIPT [SVG]    reads from standard input what ringctl printed for the script, prints the picture as text,
                           and writes it as SVG to that file
picture.py --docs          compares the pictures of the docs with what is drawn, by RINGCTL or bin/ringctl

A row has the line of the script, and the delivery where that is `deliver all`. An arrow is a delivery or a credit, with
the ticket where there is one, the number of the message, and what came of it at the successor. What the nodes do is
worked out by docs/PROTOCOL.md, and each printed line is held against that. Status 0; 1 where the two do not agree, with
the line, or a picture is another one; 2 for other arguments or a file that cannot be read.
"""
import os
import pathlib
import subprocess
import sys

import svg
import text
from run import Fault, Run

ROOT = pathlib.Path(__file__).resolve().parents[1]
# The script of each picture of the docs, and the page that has it as text. Its SVG stands beside the page.
DOCS = {"examples/first_election.ring": "docs/PROTOCOL.md", "examples/stopped_at_the_gate.ring": "docs/ARCHITECTURE.md"}


def draw(script: str, printed: str, title: str) -> tuple[str, str]:
    """The picture as text and as SVG."""
    run = Run(script, printed)
    if not run.nodes:
        raise Fault("the script makes no ring")
    rows = run.labels()
    return text.draw(len(run.nodes), rows), svg.draw(len(run.nodes), rows, title)


def compare() -> list[str]:
    """The pictures of the docs that are not what is drawn."""
    ringctl = os.environ.get("RINGCTL", ROOT / "bin" / "ringctl")
    faults = []
    for name, page in DOCS.items():
        script = (ROOT / name).read_text(encoding="ascii")
        printed = subprocess.run([ringctl], input=script, capture_output=True, text=True, check=True).stdout
        drawn, image = draw(script, printed, name)
        if f"```\n{drawn}```\n" not in (ROOT / page).read_text(encoding="utf-8"):
            faults.append(f"{page} does not have the picture of {name}: make picture SCRIPT={name} prints it")
        kept = ROOT / "docs" / f"{pathlib.Path(name).stem}.svg"
        if not kept.is_file() or kept.read_text(encoding="utf-8") != image:
            faults.append(f"docs/{kept.name} is not the picture of {name}: make picture SCRIPT={name} SVG=docs/{kept.name}")
    return faults


def main(words: list[str]) -> int:
    try:
        if words == ["--docs"]:
            faults = compare()
            print("\n".join([*faults, f"{len(DOCS)} pictures, {len(faults)} faults"]))
            return 1 if faults else 0
        if not 1 <= len(words) <= 2 or words[0].startswith("-"):
            print(__doc__.split("\n\n")[1], file=sys.stderr)
            return 2
        script = pathlib.Path(words[0]).read_text(encoding="utf-8", errors="replace")
        drawn, image = draw(script, sys.stdin.read(), os.path.relpath(words[0], ROOT))
        if len(words) == 2:
            pathlib.Path(words[1]).write_text(image, encoding="utf-8")
        print(drawn, end="")
        return 0
    except Fault as fault:
        print(f"picture.py: {fault}", file=sys.stderr)
        return 1
    except (OSError, subprocess.CalledProcessError) as fault:
        print(f"picture.py: {fault}", file=sys.stderr)
        return 2


if __name__ == "__main__":
    sys.exit(main(sys.argv[1:]))
