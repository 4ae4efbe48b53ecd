"""What a run of a program is held to."""
import os
import sys
import unittest

sys.path.append(os.path.join(os.path.dirname(os.path.abspath(__file__)), "kinds"))
from programs import MOST, Programs


class ProgramsTest(unittest.TestCase):
    def setUp(self) -> None:
        self.programs = Programs("", "", False)
        self.addCleanup(self.programs.close)

    def takes(self, mebibytes: int) -> str | None:
        """What is wrong with a run that takes so much memory."""
        return self.programs.run([sys.executable, "-c", f"x = bytearray({mebibytes} << 20)"], b"").fault

    def test_memory_is_that_of_the_program(self) -> None:
        self.assertIsNone(self.takes(0))
        self.assertRegex(self.takes(100) or "", r"\A\d{6} KiB of memory\Z")
        own = bytearray(2 * MOST << 10)
        self.assertIsNone(self.takes(0))
        self.assertRegex(self.takes(len(own) + (100 << 20) >> 20) or "", r"\A\d{6} KiB of memory\Z")


if __name__ == "__main__":
    unittest.main()
