"""A client of Cinoweta, a durable leader election service.

    from cinoweta import Lock, Ring
    with Lock(Ring(7101, 7103), "jobs") as held:
        while not held.is_lost():
            ...  # send held.term with each write, as a fencing number

Whoever is written to has to turn away each write with a lower number than one that it has seen: nothing else keeps a
leader that was paused from a late write. docs/CLIENTS.md tells of it, and of `Ring.campaign`, which needs no beacon.
"""
import logging

from .errors import (AlreadyStands, BadLine, BadName, BadNumber, Cancelled, CinowetaError, DeviceFailed, Full, Late,
                     LimitReached, LockTaken, NoAnswer, NodeFailed, NoLeader, NotHeld, NotListed, NoTerm, OutOfMemory,
                     Refused, Resigned, Retired, Stale, TooFar, Undecided, WrongRing)
from .kinds import Election, Holder, Leader, Led, Waiter
from .lock import Lock, holder, waiters
from .ring import Ring

__version__ = "0.1.0"
# Takes, losses and resigns are told to who asks for them.
logging.getLogger("cinoweta").addHandler(logging.NullHandler())
__all__ = ["AlreadyStands", "BadLine", "BadName", "BadNumber", "Cancelled", "CinowetaError", "DeviceFailed", "Election",
           "Full", "Holder", "Late", "Leader", "Led", "LimitReached", "Lock", "LockTaken", "NoAnswer", "NoLeader",
           "NodeFailed", "NotHeld", "NotListed", "NoTerm", "OutOfMemory", "Refused", "Resigned", "Retired", "Ring",
           "Stale", "TooFar", "Undecided", "Waiter", "WrongRing", "holder", "waiters"]
