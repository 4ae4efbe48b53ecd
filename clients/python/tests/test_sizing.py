"""What is told of the ring that so many groups need."""
import json
import pathlib
import re
import unittest

from cinoweta.sizing import Size, size

from .test_host import told

ROOT = pathlib.Path(__file__).resolve().parents[3]
ROW = re.compile(r"\| (\d+) \| [0-9, ]+ \| (\d+) \| ([\d,]+) \| ([\d,]+?)(?:, [\d,]+)? \| (\d+) \|")


class SizingTest(unittest.TestCase):
    def test_it_is_that_of_the_rows_that_were_measured(self) -> None:
        table = (ROOT / "docs" / "OPERATING.md").read_text("utf-8").partition("**Sizing.**")[2]
        rows = [[int(word.replace(",", "")) for word in row] for row in ROW.findall(table)]
        self.assertEqual([row[:2] for row in rows], [[50, 2], [50, 10], [200, 2]])
        for groups, keep, capacity, snapshot, stands in rows:
            told = size(groups, groups * keep)
            self.assertEqual((told.capacity, told.keep, told.stands), (capacity, keep, stands))
            self.assertLess(abs(told.snapshot - snapshot), 0.15 * snapshot)

    def test_more_takes_more_until_nothing_is_enough(self) -> None:
        self.assertEqual([size(50, rate).keep for rate in (0, 100, 101, 150, 151)], [2, 2, 3, 3, 4])
        self.assertEqual([size(500, 0, name).capacity for name in (8, 10, 11)], [262_144, 262_144, 524_288])
        self.assertEqual(size(500, 0), Size(262_144, 2, 57_000, 1_000))
        self.assertEqual([size(512, 0) is None, size(513, 0), size(513, 0, nodes=4) is None], [False, None, False])
        self.assertIsNone(size(1, 100_000))
        for words in (0, 0), (1, -1), (1, 0, 0), (1, 0, 17), (1, 0, 8, 1), (1, 0, 8, 17):
            with self.assertRaises(ValueError):
                size(*words)

    def test_the_command(self) -> None:
        words = ["sizing", "--groups", "200", "--elections-a-minute", "400"]
        self.assertEqual(told(*words), (0, "capacity 131072 keep 2 snapshot 22800 stands 400\n", ""))
        code, out, _ = told("--json", *words, "--name", "16")
        wanted = {"groups": 200, "elections": 400, "capacity": 131_072, "keep": 2, "snapshot": 32_400, "stands": 400}
        self.assertEqual((code, json.loads(out)), (0, wanted))
        words[2] = "600"
        self.assertEqual(told(*words), (1, "none\n", ""))
        self.assertIsNone(json.loads(told("--json", *words)[1])["capacity"])
        self.assertEqual(told(*words, "--nodes", "1")[0], 2)
