"""Tests of run.py, over small folders of tests: what fails, hangs, crashes or is skipped, and what is left behind."""
import os
import pathlib
import shutil
import signal
import subprocess
import sys
import tempfile
import time
import unittest

from processes import is_there

HERE = pathlib.Path(__file__).resolve().parent
PATIENCE = 120.0
HEAD = "import os, pathlib, signal, subprocess, sys, time, unittest\nNOTES = pathlib.Path(os.environ['NOTES'])\n"
# Starts a program that ignores TERM in a session of its own, and tells its number.
CHILD = """
SLEEPS = "import pathlib, signal, sys, time; signal.signal(signal.SIGTERM, signal.SIG_IGN); pathlib.Path(sys.argv[1]).touch(); time.sleep(1000)"
def child():
    process = subprocess.Popen([sys.executable, "-c", SLEEPS, str(NOTES / "ready")], start_new_session=True)
    while not (NOTES / "ready").exists():
        time.sleep(0.01)
    (NOTES / "child").write_text(str(process.pid))
"""
GO = """package small
import "testing"
func TestPasses(t *testing.T) {}
func TestFails(t *testing.T) { t.Fatal("it fails") }
func TestSkips(t *testing.T) { t.Skip("for want of a moon") }
"""


class RunTest(unittest.TestCase):
    def setUp(self) -> None:
        self.folder = pathlib.Path(tempfile.mkdtemp(prefix="run-"))
        self.addCleanup(shutil.rmtree, self.folder)
        self.tests, self.notes = self.folder / "small", self.folder / "notes"
        self.tests.mkdir()
        self.notes.mkdir()
        # Nothing of it is run.
        self.environment = {**os.environ, "NOTES": str(self.notes), "TMPDIR": str(self.notes), "RINGD": sys.executable, "RINGCTL": sys.executable}

    def write(self, name: str, *tests: str, head: str = "") -> None:
        """A file of tests, each of which is the body of a function."""
        bodies = "".join(f"    def test_{chr(ord('a') + place)}(self):\n        {body}\n" for place, body in enumerate(tests))
        (self.tests / f"test_{name}.py").write_text(f"{HEAD}{head}\nclass Small(unittest.TestCase):\n{bodies}", "utf-8")

    def start(self, *words: str) -> "subprocess.Popen[str]":
        return subprocess.Popen([sys.executable, str(HERE / "run.py"), *words, str(self.tests)], env=self.environment, text=True,
                                stdout=subprocess.PIPE, stderr=subprocess.PIPE)

    def told(self, *words: str, status: int) -> str:
        """What it prints, and ends with this status."""
        with self.start(*words) as process:
            out, err = process.communicate(timeout=PATIENCE)
        self.assertEqual(process.returncode, status, out + err)
        # Its folder is gone.
        self.assertEqual([path.name for path in self.notes.iterdir() if path.name.startswith("tests-")], [])
        return out if status < 2 else err

    def last(self, told: str, *lines: str) -> None:
        """It ends so."""
        self.assertEqual(told.splitlines()[-len(lines):], [*lines], told)

    def child_is_gone(self) -> None:
        self.assertFalse(is_there(int((self.notes / "child").read_text("ascii"))))

    def test_each_test_is_counted(self) -> None:
        self.write("one", "pass", "pass")
        self.write("two", "pass", "self.skipTest('there is no moon')", "self.skipTest('for want of a moon, root')")
        told = self.told(status=0)
        self.assertRegex(told, r"(?m)^ +\d+\.\d s  .*test_one\.py: 2 passed$")
        self.assertRegex(told, r"(?m)^ +\d+\.\d s  .*test_two\.py: 1 passed, 2 not run$")
        self.assertRegex(told, r"(?m)^not run: 1 of .*test_two\.py: there is no moon$")
        self.assertRegex(told, r"(?m)^processor seconds of all tests, user plus system: \d+\.\d$")
        self.last(told, "not run for want of: a moon, root", "3 passed, 0 failed")

    def test_what_fails_is_told_whole(self) -> None:
        self.write("one", "pass", "print('a', 'line'); self.assertEqual(1, 2)", "[self.subTest(number).__enter__() for number in (1,)]; self.fail('so')")
        told = self.told(status=1)
        for text in ("failed: test_one.Small.test_b", "AssertionError: 1 != 2", "a line", "AssertionError: so"):
            self.assertEqual(told.count(text), 2, text)
        self.last(told, "1 passed, 2 failed")

    def test_a_long_failure_is_cut(self) -> None:
        self.write("one", "self.fail('\\n'.join(map(str, range(1_000))))")
        told = self.told(status=1)
        self.assertIn("lines are left out]", told)
        self.assertLess(told.count("\n"), 450)

    def test_a_part_of_a_test_that_fails_fails_it(self) -> None:
        self.write("one", "\n        ".join(("for number in (1, 2, 3):", "    with self.subTest(number):", "        self.assertEqual(number, 2)")))
        told = self.told(status=1)
        self.assertIn("AssertionError: 1 != 2", told)
        self.assertIn("AssertionError: 3 != 2", told)
        self.last(told, "0 passed, 1 failed")

    def test_what_fails_once_is_unsteady(self) -> None:
        self.write("one", "pass", "self.assertTrue((NOTES / 'once').exists() or (NOTES / 'once').touch())", "pass")
        told = self.told(status=0)
        self.assertRegex(told, r"(?m)^unsteady: test_one\.Small\.test_b of .*test_one\.py failed, and passed ")
        self.last(told, "3 passed, 0 failed")

    def test_what_hangs_is_ended_with_all_that_it_started(self) -> None:
        self.write("one", "pass", "child(); time.sleep(1000)", "pass", head=CHILD)
        told = self.told("--seconds", "8", status=1)
        self.assertIn("its time was over while it ran", told)
        # Where it stands.
        self.assertIn("in test_b", told)
        self.child_is_gone()
        self.last(told, "2 passed, 1 failed")

    def test_what_is_left_behind_is_ended_and_told(self) -> None:
        self.write("one", "child()", head=CHILD)
        told = self.told(status=0)
        self.assertRegex(told, r"(?m)^.*test_one\.py: left behind: process \d+, python")
        self.child_is_gone()
        self.last(told, "1 passed, 0 failed")

    def test_what_is_interrupted_leaves_nothing(self) -> None:
        self.write("one", "child(); time.sleep(1000)", head=CHILD)
        for number in (signal.SIGTERM, signal.SIGINT, signal.SIGKILL):
            with self.start() as process:
                until = time.monotonic() + PATIENCE
                while not (self.notes / "child").exists():
                    self.assertLess(time.monotonic(), until)
                    time.sleep(0.01)
                process.send_signal(number)
                process.communicate(timeout=PATIENCE)
            self.assertEqual(process.returncode, -number if number == signal.SIGKILL else 130)
            while number == signal.SIGKILL and is_there(int((self.notes / "child").read_text("ascii"))):
                self.assertLess(time.monotonic(), until)
                time.sleep(0.01)
            self.child_is_gone()
            for name in ("child", "ready"):
                (self.notes / name).unlink()

    def test_no_signal_is_ignored(self) -> None:
        self.write("one", "self.assertEqual(signal.getsignal(signal.SIGHUP), signal.SIG_DFL)")
        self.addCleanup(signal.signal, signal.SIGHUP, signal.signal(signal.SIGHUP, signal.SIG_IGN))
        self.last(self.told(status=0), "1 passed, 0 failed")

    def test_what_crashes_fails(self) -> None:
        self.write("one", "pass", "os.kill(os.getpid(), signal.SIGSEGV)", "pass", "pass")
        told = self.told(status=1)
        self.assertIn("signal 11 ended it while it ran", told)
        # The others are run once it has ended, and are not unsteady.
        self.assertNotIn("unsteady", told)
        self.last(told, "3 passed, 1 failed")

    def test_what_leaves_early_fails(self) -> None:
        self.write("one", "pass", "os._exit(0)")
        self.last(self.told(status=1), "1 passed, 1 failed")

    def test_what_cannot_be_imported_fails(self) -> None:
        self.write("one", "pass")
        self.write("two", "pass", head="import nothing_of_this_name")
        (self.tests / "test_three.py").write_text("", "utf-8")
        told = self.told(status=1)
        self.assertIn("No module named 'nothing_of_this_name'", told)
        self.last(told, "1 passed, 2 failed")

    def test_what_stands_before_the_tests_of_a_file_fails_them(self) -> None:
        self.write("one", "pass", "pass", head="def setUpModule():\n    raise RuntimeError('there is no sun')\n")
        told = self.told(status=1)
        self.assertIn("RuntimeError: there is no sun", told)
        self.last(told, "0 passed, 1 failed")

    def test_nothing_is_run_without_programs_or_tests(self) -> None:
        self.assertIn("no tests at", self.told(status=2))
        self.write("one", "pass")
        self.environment["RINGD"] = str(self.folder / "nothing")
        self.assertIn("make bin/ringd builds it", self.told(status=2))

    def test_what_no_tool_is_there_for_is_named(self) -> None:
        self.write("one", "pass")
        for name in ("go.mod", "small_test.go", "test_alerts.yml", "py.typed"):
            (self.tests / name).touch()
        self.environment["PATH"] = str(self.folder)
        told = self.told(status=0)
        self.assertRegex(told, r"(?m)^not run: .*test_alerts\.yml: for want of promtool$")
        self.last(told, "not run for want of: go, mypy, promtool", "1 passed, 0 failed")

    @unittest.skipUnless(shutil.which("go"), "for want of go")
    def test_tests_of_go(self) -> None:
        (self.tests / "go.mod").write_text("module small\n\ngo 1.19\n", "utf-8")
        (self.tests / "small_test.go").write_text(GO, "utf-8")
        told = self.told(status=1)
        self.assertIn("failed: TestFails", told)
        self.assertIn("it fails", told)
        # That go vet finds nothing is one more.
        self.last(told, "not run for want of: a moon", "2 passed, 1 failed")
        (self.tests / "small_test.go").write_text(GO.replace("t.Fatal", "t.Fat"), "utf-8")
        told = self.told(status=1)
        self.assertIn("t.Fat undefined", told)
        self.last(told, "0 passed, 2 failed")


if __name__ == "__main__":
    unittest.main()
