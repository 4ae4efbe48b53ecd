#!/usr/bin/env python3
"""Tries the edits of this folder, each on a copy of its crate, which the compiler must refuse for the reason that the edit tells.

An edit has the lines `crate: NAME`, `file: src/NAME.rt`, `old: TEXT` and `new: TEXT`, the old text standing once in the file. Where it
lets go a value that must be spent, no more is said; else a line `error: NAME` names what the compiler must say. `rt ci` and
wrong_bodies/run.py try those that only the prover can refuse; these are refused before a proof is begun."""

import pathlib
import shutil
import subprocess
import sys
import tempfile

FOLDER = pathlib.Path(__file__).resolve().parent
ROOT = FOLDER.parent


def parts(edit):
    """The lines of an edit, by their names."""
    return dict(line.split(": ", 1) for line in edit.read_text().splitlines())


def refusal(said):
    """What the compiler says of the crate with this edit."""
    with tempfile.TemporaryDirectory() as room:
        copy = pathlib.Path(room)
        shutil.copy(ROOT / "crates.txt", copy)
        shutil.copy(ROOT / "HANDLES", copy)
        shutil.copytree(ROOT / "crates", copy / "crates", ignore=shutil.ignore_patterns("out", "must-fail"))
        path = copy / "crates" / said["crate"] / said["file"]
        text = path.read_text()
        if text.count(said["old"]) != 1:
            return "the old text does not stand once in the file"
        path.write_text(text.replace(said["old"], said["new"]))
        ran = subprocess.run(["rt", "check"], cwd=copy / "crates" / said["crate"], capture_output=True, text=True)
        return ran.stdout + ran.stderr


def main():
    failed = 0
    for edit in sorted(FOLDER.glob("*.edit")):
        said = parts(edit)
        refused = f"error[{said.get('error', 'linear-value-let-go')}]" in refusal(said)
        failed += not refused
        print(f"must_not_compile/{edit.name}: {'refused, as it must be' if refused else 'NOT REFUSED'}")
    return 1 if failed else 0


sys.exit(main())
