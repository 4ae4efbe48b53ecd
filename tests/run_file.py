#!/usr/bin/env python3
"""run_file.py FILE RESULTS SECONDS [TEST..]: runs the tests of a file, or these alone, and writes what came of each.

RESULTS gets a JSON object a line: first the names of all tests that are run, then of each its begin, and its outcome with a text, and last
an end, which is missing where the interpreter crashed. After so many SECONDS each thread tells on standard error where it stands. The status
is 0 once all were run, whatever came of them."""

import faulthandler
import importlib
import json
import pathlib
import sys
import traceback
import unittest
from collections.abc import Iterator
from typing import IO, Any


def module_name(path: pathlib.Path) -> tuple[pathlib.Path, str]:
    """The folder from which a file is imported, and the name of its module."""
    folder, name = path.parent, path.stem
    while (folder / "__init__.py").is_file():
        folder, name = folder.parent, f"{folder.name}.{name}"
    return folder, name


def each_test(tests: unittest.TestSuite) -> Iterator[unittest.TestCase]:
    """The tests of a suite, in order."""
    for test in tests:
        if isinstance(test, unittest.TestSuite):
            yield from each_test(test)
        else:
            yield test


class Results(unittest.TestResult):
    """Writes what comes of each test as soon as it is known."""

    def __init__(self, file: IO[str]) -> None:
        super().__init__()
        self.file = file
        # The test that runs, its outcome, and the texts that say why.
        self.running: "unittest.TestCase | None" = None
        self.outcome = ""
        self.texts: list[str] = []

    def write(self, **told: Any) -> None:
        self.file.write(json.dumps(told) + "\n")
        self.file.flush()

    def startTest(self, test: unittest.TestCase) -> None:
        super().startTest(test)
        self.running, self.outcome, self.texts = test, "passed", []
        self.write(begins=test.id())

    def stopTest(self, test: unittest.TestCase) -> None:
        super().stopTest(test)
        self.write(test=test.id(), outcome=self.outcome, text="\n".join(self.texts))
        self.running = None

    def tell(self, test: Any, outcome: str, text: str) -> None:
        """What came of a test, or of what stands before the tests of a class or of the file."""
        if test is not self.running:
            self.write(test=test.id(), outcome=outcome, text=text)
        elif self.outcome != "failed":
            self.outcome, self.texts = outcome, [text]
        elif outcome == "failed":
            self.texts.append(text)

    def addError(self, test: Any, err: Any) -> None:
        self.tell(test, "failed", "".join(traceback.format_exception(*err)))

    addFailure = addError

    def addSubTest(self, test: Any, subtest: Any, err: Any) -> None:
        if err is not None:
            self.tell(test, "failed", f"{subtest}\n" + "".join(traceback.format_exception(*err)))

    def addSkip(self, test: Any, reason: str) -> None:
        self.tell(getattr(test, "test_case", test), "skipped", reason)

    def addUnexpectedSuccess(self, test: Any) -> None:
        self.tell(test, "failed", "it passed, and was expected to fail\n")


def main() -> int:
    path, results, seconds, wanted = pathlib.Path(sys.argv[1]).resolve(), sys.argv[2], float(sys.argv[3]), {*sys.argv[4:]}
    faulthandler.enable()
    faulthandler.dump_traceback_later(seconds)
    folder, name = module_name(path)
    # As where the file is run by itself: its folder comes first.
    sys.path[0], sys.argv = str(folder), [str(path)]
    with open(results, "w", encoding="utf-8") as file:
        told = Results(file)
        tests = unittest.TestSuite(test for test in each_test(unittest.defaultTestLoader.loadTestsFromModule(importlib.import_module(name)))
                                   if not wanted or test.id() in wanted)
        told.write(tests=[test.id() for test in each_test(tests)])
        tests.run(told)
        told.write(ends=True)
    return 0


if __name__ == "__main__":
    sys.exit(main())
