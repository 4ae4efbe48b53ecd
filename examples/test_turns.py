#!/usr/bin/env python3
"""Tests of turns.py: a short play beside a real ringd, which RINGD names, or bin/ringd. `make clients` runs them."""
import contextlib
import io
import pathlib
import re
import sys
import unittest

HERE = pathlib.Path(__file__).resolve().parent
sys.path[:0] = [str(HERE), str(HERE.parent / "clients" / "python")]
import turns
from tests.served import require

setUpModule = require


class TurnsTest(unittest.TestCase):
    def test_what_is_printed(self) -> None:
        with contextlib.redirect_stdout(io.StringIO()) as out:
            # Whether turns are fair a few of them do not tell.
            self.assertIn(turns.main(["--seconds", "6", "--kills", "1"]), (0, 1))
        lines = out.getvalue().splitlines()
        self.assertEqual(len(lines), 7)
        self.assertRegex(lines[0], r"\Aalone: a Stand in ms:( \d+\.\d){5}; with its election:( \d+\.\d){5}\Z")
        for where, told in ("one host", lines[1:4]), ("across hosts", lines[4:]):
            counts = re.fullmatch(rf"{where}: turns (\d+): red (\d+), green (\d+), blue (\d+), grey (\d+)", told[0])
            total, *own = map(int, counts.groups())
            self.assertEqual((total, min(own) > 0), (sum(own), True))
            self.assertRegex(told[1], rf"\A{where}: from a resign to the next holder in ms:( \d+\.\d){{5}}\Z")
            self.assertRegex(told[2], rf"\A{where}: from a kill to the next holder in ms: \d+\.\d\Z")

    def test_who_had_its_share(self) -> None:
        def play(*counts: int) -> bool:
            names = [name for name, count in zip(turns.NAMES, counts) for _ in range(count)]
            with contextlib.redirect_stdout(io.StringIO()):
                return turns.is_fair("here", [turns.Turn(term, name, term, term + 0.5) for term, name in enumerate(names)])

        self.assertEqual([play(5, 5, 5, 5), play(4, 4, 6, 6), play(3, 5, 6, 6), play(4, 4, 5, 7)], [True, True, False, False])


if __name__ == "__main__":
    unittest.main()
