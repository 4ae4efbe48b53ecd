"""A node of pictures/nodes.py with its limits, as docs/PROTOCOL.md has them: its capacity, and 1,024 Stands that are not retired."""
import os
import sys

sys.path.insert(0, os.path.join(os.path.dirname(__file__), "..", "..", "pictures"))
from nodes import Acked, Input, Node, Retire, Stand, Take

STANDS = 1_024
# What the snapshot of a node without inputs takes.
FRESH = 42


def cost(asked: Input) -> int:
    """What an input takes of the capacity."""
    if isinstance(asked, Acked):
        return 16
    if isinstance(asked, Retire):
        return 13 + len(asked.group)
    return 17 + len(asked.key.group) if isinstance(asked, Stand) else 26 + len(asked.message.key.group)


class Bounded(Node):
    """Its base stands for the first `based` inputs, and takes `base` bytes."""

    def __init__(self, me: int, capacity: int) -> None:
        self.capacity, self.based, self.base = capacity, 0, FRESH
        super().__init__(me)

    def forget(self) -> None:
        super().forget()
        # What the first inputs cost, by how many these are.
        self.costs = [0]

    def accept(self, asked: Input) -> str:
        self.costs.append(self.costs[-1] + cost(asked))
        return super().accept(asked)

    def used(self) -> int:
        return self.base + self.costs[-1] - self.costs[self.based]

    def refusal(self, asked: Input) -> str | None:
        told = super().refusal(asked)
        if told is None and isinstance(asked, Stand) and len(self.stood) >= STANDS:
            return "no 6 limit"
        return "no 7 full" if told is None and self.used() + cost(asked) > self.capacity else told

    def snapshot(self) -> int:
        """How long the snapshot of all its inputs is."""
        keys = sum(6 + len(key.group) + 4 * (key in self.stood) + 5 * (key in self.leaders) for key in self.touched)
        floors = sum(5 + len(group) for group in self.floors)
        return FRESH + keys + sum(11 + len(message.key.group) for message, _ in self.sent[self.credit:]) + floors

    def rebase(self) -> None:
        """A checkpoint is durable: the snapshot stands for all inputs."""
        self.base, self.based, self.durable = self.snapshot(), len(self.inputs), len(self.inputs)
