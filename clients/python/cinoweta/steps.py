"""What is written once, for threads and for an event loop: coroutines. A thread takes all of their steps at once."""
from collections.abc import Coroutine
from typing import Any, TypeVar

Result = TypeVar("Result")


def at_once(steps: Coroutine[Any, Any, Result]) -> Result:
    """What these steps come to, each of which blocks until it is done."""
    try:
        steps.send(None)
    except StopIteration as end:
        result: Result = end.value
        return result
    steps.close()
    raise RuntimeError("a step waits for an event loop")
