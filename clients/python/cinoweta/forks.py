"""What a process that was forked does with what it has of its parent."""
import os
import weakref
from typing import Protocol


class Forked(Protocol):
    def forget(self) -> None:
        """Leaves what is the parent's to the parent."""


members: "weakref.WeakSet[Forked]" = weakref.WeakSet()


def register(member: Forked) -> None:
    """Has it forget in each process that is forked from here on."""
    members.add(member)


def forget_all() -> None:
    for member in list(members):
        member.forget()


# Windows has no fork.
if hasattr(os, "register_at_fork"):
    os.register_at_fork(after_in_child=forget_all)
