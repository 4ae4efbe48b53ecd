"""What a process below the gate is for, and the table of what it costs."""
import contextlib
import pathlib
import subprocess
import sys
import tempfile
import unittest

HERE = pathlib.Path(__file__).resolve().parent
sys.path[:0] = [str(HERE)]
import gate

# It says that it runs, and waits until it may end.
WAITS = "echo runs; read line"
WAITS_IN_PYTHON = "import sys; print('runs', flush=True); sys.stdin.read()"
PATIENCE = 60


@contextlib.contextmanager
def running(folder, words, program="sh"):
    """The number of a process with these words in this folder, from when its words can be read."""
    process = subprocess.Popen(words, executable=program, cwd=folder, stdin=subprocess.PIPE, stdout=subprocess.PIPE)
    try:
        process.stdout.readline()
        yield process.pid
    finally:
        process.communicate(timeout=PATIENCE)


class Purposes(unittest.TestCase):
    def setUp(self):
        holder = tempfile.TemporaryDirectory()
        self.addCleanup(holder.cleanup)
        self.top = pathlib.Path(holder.name).resolve()
        for folder in ("crates/door", "rt-edit-door", "elsewhere", "tests", "trials"):
            (self.top / folder).mkdir(parents=True)
            (self.top / folder / "check").write_text(WAITS)
            (self.top / folder / "fmt").write_text(WAITS)
            (self.top / folder / "run.py").write_text(WAITS_IN_PYTHON if folder == "tests" else WAITS)

    def purpose(self, folder, *words, program="sh"):
        with running(self.top / folder, list(words), program) as number:
            return gate.purpose(number, str(self.top))

    def test_a_check_is_the_proof_of_a_crate_or_its_tests_or_an_edit(self):
        check = ("rattle", "check", "--crate-name", "door")
        self.assertEqual(self.purpose("crates/door", *check), ("door", "proof"))
        self.assertEqual(self.purpose("crates/door", *check, "--test"), ("door", "tests"))
        self.assertEqual(self.purpose("rt-edit-door", *check), ("door", "edits"))

    def test_other_work_of_the_toolchain_is_of_no_crate(self):
        self.assertEqual(self.purpose("elsewhere", "rattle", "check", "--crate-name", "door"), gate.OTHER)
        self.assertEqual(self.purpose("crates/door", "rattle", "fmt"), gate.OTHER)

    def test_the_tests_of_programs_are_told_by_their_file_in_this_folder(self):
        self.assertEqual(self.purpose(".", "python3", "tests/run.py", program=sys.executable), gate.PROGRAMS)
        self.assertEqual(self.purpose("tests", "python3", f"{self.top}/tests/run.py", program=sys.executable), gate.PROGRAMS)
        self.assertIsNone(self.purpose("trials", "sh", "run.py"))

    def test_what_has_ended_is_for_nothing(self):
        ended = subprocess.Popen(["sh", "-c", "exit"])
        ended.wait(PATIENCE)
        self.assertIsNone(gate.purpose(ended.pid, str(self.top)))


class Tables(unittest.TestCase):
    def test_the_dearest_crate_comes_first_and_what_is_of_no_crate_has_no_row(self):
        seconds = {("door", "proof"): 7.4, ("bell", "proof"): 2.0, ("bell", "tests"): 9.0, gate.OTHER: 5.0, gate.PROGRAMS: 3.0}
        rows = gate.table(gate.collections.Counter(seconds)).splitlines()[2:]
        self.assertEqual(rows, ["| bell | 2 | 9 |  |", "| door | 7 |  |  |", "| all crates | 9 | 9 | 0 |"])


if __name__ == "__main__":
    unittest.main()
