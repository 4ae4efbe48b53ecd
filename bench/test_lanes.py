"""What rt ci takes, of small tables that were worked out by hand."""
import pathlib
import subprocess
import sys
import tempfile
import unittest

HERE = pathlib.Path(__file__).resolve().parent
sys.path[:0] = [str(HERE)]
import lanes
from lanes import Cost, Fault

PRINTED = """Processor seconds, user plus system:

| a table | of others |
|---|---|
| base | 99 |

| crate | its proof | its tests | its edits |
|---|---|---|---|
| left | 30 |  | 20 |
| right_tests | 5 | 40 |  |
| right | 20 |  |  |
| base | 10 |  |  |
| all crates | 65 | 40 | 20 |

| crate | its proof | its tests | its edits |
|---|---|---|---|
| base | 77 |  |  |
"""
# right_tests stands on left by right alone, and first in the file.
CRATES = """# Each crate and what it stands on.
right_tests tests_may=Threads: core right
left: base std
right may_wait=3: left base
base:
"""
COSTS = {"left": Cost(30, 0, 20), "right_tests": Cost(5, 40, 0), "right": Cost(20, 0, 0), "base": Cost(10, 0, 0)}
LINES = {"base": 10, "left": 30, "right": 20, "right_tests": 40}


def tasks(crates=CRATES, lines=None, costs=None):
    return lanes.tasks_of(lanes.libraries(crates), lines or LINES, costs or COSTS)


class Tables(unittest.TestCase):
    def test_the_first_table_of_costs_is_read_and_no_other(self):
        self.assertEqual(lanes.costs(PRINTED), COSTS)

    def test_a_text_without_such_a_table_is_refused(self):
        with self.assertRaises(Fault):
            lanes.costs("| crate | lines |\n|---|---|\n| base | 10 |\n")

    def test_a_row_without_numbers_is_refused(self):
        with self.assertRaises(Fault):
            lanes.costs("| crate | its proof | its tests | its edits |\n|---|---|---|---|\n| base | much |  |  |\n")

    def test_a_crate_stands_on_all_below_it(self):
        self.assertEqual(
            lanes.libraries(CRATES),
            {"base": [], "left": ["base"], "right": ["base", "left"], "right_tests": ["base", "left", "right"]},
        )

    def test_crates_that_stand_on_each_other_are_refused(self):
        with self.assertRaises(Fault):
            lanes.libraries("left: right\nright: left\n")


class Clocks(unittest.TestCase):
    def test_one_processor_takes_the_sum(self):
        self.assertEqual(lanes.clock(tasks(), 1), 125)

    def test_tests_wait_for_the_crates_below_and_not_for_their_own_proof(self):
        # base to 10, left to 40. Then right to 60, beside the edits of left, to 60. Then the tests to 100, beside the proof, to 65.
        self.assertEqual(lanes.clock(tasks(), 2), 100)
        self.assertEqual(lanes.clock(tasks(), 8), 100)

    def test_edits_wait_for_the_tests_of_their_crate(self):
        alone = {"base": Cost(10, 30, 5)}
        self.assertEqual(lanes.clock(tasks("base:\n", {"base": 10}, alone), 4), 35)

    def test_first_comes_what_has_the_most_lines_behind_it_and_not_the_most_seconds(self):
        # large to 10 beside middle, to 20; small, which takes the longest, begins at 10.
        costs = {"small": Cost(30), "large": Cost(10), "middle": Cost(20)}
        self.assertEqual(lanes.clock(tasks("small:\nlarge:\nmiddle:\n", {"small": 1, "large": 3, "middle": 2}, costs), 2), 40)
        # The lines of what stands on small count for it: it and above end at 50, and large begins at 20, behind middle.
        costs["above"], lines = Cost(20), {"small": 1, "large": 3, "middle": 4, "above": 5}
        self.assertEqual(lanes.clock(tasks("small:\nlarge:\nmiddle:\nabove: small\n", lines, costs), 2), 50)

    def test_idle_processors_are_shared_by_what_can_begin(self):
        # Of four, the proof gets two, as the empty task of tests can begin too: 34 s by 1.7. An edit gets one.
        alone = tasks("base:\n", {"base": 10}, {"base": Cost(34, 0, 6)})
        self.assertAlmostEqual(lanes.clock(alone, 4, has_spare=True), 26)
        self.assertEqual(lanes.clock(alone, 4), 40)


class Chains(unittest.TestCase):
    def test_the_longest_chain_comes_first_and_what_goes_on_stands_for_its_beginning(self):
        base, left, right = (("base", "proof"), ("left", "proof"), ("right", "proof"))
        found = lanes.chains(tasks())
        self.assertEqual(found[0], (100, (base, left, right, ("right_tests", "tests"))))
        self.assertEqual(found[1:], [(60, (base, left, ("left", "edits")))])

    def test_the_table_names_the_sums_and_both_limits(self):
        printed = lanes.table(tasks(), [1, 2])
        self.assertEqual(printed.splitlines()[0], "125 processor seconds: proof 65, tests 40, edits 20")
        self.assertIn("| 1 | 125 | 100 | 125 | 125 |", printed)
        self.assertIn("| 2 | 62 | 100 | 100 | 100 |", printed)
        self.assertIn("| 100 | base 10, left 30, right 20, right_tests (tests) 40 |", printed)


class Words(unittest.TestCase):
    def run_on(self, *words):
        return subprocess.run([sys.executable, HERE / "lanes.py", *words], capture_output=True, text=True, timeout=60)

    def test_crates_without_a_row_and_rows_without_a_crate_are_told(self):
        with tempfile.NamedTemporaryFile("w", suffix=".md") as page:
            page.write("| crate | its proof | its tests | its edits |\n|---|---|---|---|\n| ring_records | 7 |  |  |\n| gone | 5 |  |  |\n")
            page.flush()
            ran = self.run_on("--with", page.name, "4")
        self.assertEqual(ran.returncode, 0, ran.stderr)
        self.assertIn("7 processor seconds", ran.stdout)
        self.assertIn("lanes.py: gone is no crate of crates.txt, and is left out", ran.stderr)
        self.assertIn("lanes.py: ringd has no row, and counts as 0", ran.stderr)

    def test_the_table_of_the_documents_keeps_within_both_limits(self):
        ran = self.run_on("1", "3")
        self.assertEqual(ran.returncode, 0, ran.stderr)
        rows = [[float(it) for it in line.strip("| ").split(" | ")] for line in ran.stdout.splitlines() if line.startswith(("| 1 |", "| 3 |"))]
        (_, whole, _, alone, _), (_, third, longest, three, _) = rows
        self.assertEqual(whole, alone)
        self.assertTrue(max(third, longest) <= three + 1 <= whole + 2, rows)

    def test_words_that_are_none_are_refused(self):
        for words in (["0"], ["four"], ["--with"], ["--with", "/nowhere/page.md"]):
            self.assertEqual(self.run_on(*words).returncode, 2, words)


if __name__ == "__main__":
    unittest.main()
