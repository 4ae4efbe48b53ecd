"""Pauses between two looks, each twice as long as the one before."""
import time
from typing import Protocol

SHORTEST, LONGEST = 0.002, 1.0
# From this pause on a session is ended first: it holds one of the node's doors, of which there may be one.
HELD = 0.1


class Held(Protocol):
    def close(self) -> None: ...

    async def sleep(self, seconds: float) -> None: ...


class Pause:
    """The pauses while something is waited for, at most so many seconds in all, or for ever."""

    def __init__(self, held: Held, seconds: float = float("inf")) -> None:
        self.held = held
        self.until = time.monotonic() + seconds
        self.next = SHORTEST

    async def take(self) -> bool:
        """Pauses once. False, without a pause, once the time is over."""
        left = self.until - time.monotonic()
        if left <= 0:
            return False
        if self.next >= HELD:
            self.held.close()
        await self.held.sleep(min(self.next, left))
        self.next = min(2 * self.next, LONGEST)
        return True
