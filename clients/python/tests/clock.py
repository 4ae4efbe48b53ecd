"""What tests that watch the clock share: beside a busy machine a moment may last for seconds, so they have several tries."""
import functools
import time
import unittest
from collections.abc import Callable
from typing import Any

TRIES = 5
# How long anything is waited for that is to come, in seconds.
PATIENCE = 60.0


class Late(AssertionError):
    """Something took longer than it should."""


def took(since: float, most: float, least: float = 0.0, what: object = "") -> None:
    """Fails where it did not take so long since then: at least so many seconds, and less than so many."""
    seconds = time.monotonic() - since
    if seconds < least:
        raise AssertionError(f"it took {seconds:.3f} seconds, and {least} at least were expected {what}")
    if seconds >= most:
        raise Late(f"it took {seconds:.3f} seconds, and less than {most} were expected {what}")


def tried(test: Callable[..., None]) -> Callable[..., None]:
    """A test that begins anew where it is late, and fails where each try is. What else fails fails it at once."""
    @functools.wraps(test)
    def tries(case: unittest.TestCase, *words: Any) -> None:
        for _ in range(TRIES - 1):
            try:
                return test(case, *words)
            except Late:
                case.tearDown()
                case.doCleanups()
                case.setUp()
        return test(case, *words)

    return tries
