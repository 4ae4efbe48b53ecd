#!/usr/bin/env python3
"""supervise.py SECONDS COMMAND [WORD..]: runs a command, and ends what it leaves behind.

Once the command has ended, so has all that it started, whatever session it made for itself: what still runs a second later is killed, and
told on standard error. After so many seconds, at TERM, INT or HUP, and where its own parent ends, all is killed at once.

The status is that of the command, 128 and the number of the signal where one ended it, 124 where its time was over, 126 where it can't
be run, 2 where the words are wrong."""

import ctypes
import os
import signal
import sys
import time

PR_SET_PDEATHSIG, PR_SET_CHILD_SUBREAPER = 1, 36
ENDING = (signal.SIGTERM, signal.SIGINT, signal.SIGHUP)
TIME_OVER, CANNOT_RUN = 124, 126
# How long what the command leaves behind may take to end by itself, in seconds.
GRACE = 1.0


def descendants() -> dict[int, str]:
    """The names of the programs below this one, by their numbers. The dead that wait for their parents are none."""
    names: dict[int, str] = {}
    children: dict[int, list[int]] = {}
    for number in map(int, filter(str.isdigit, os.listdir("/proc"))):
        try:
            with open(f"/proc/{number}/stat", encoding="utf-8", errors="replace") as stat:
                before, _, after = stat.read().rpartition(")")
        except OSError:
            continue
        state, parent = after.split()[:2]
        children.setdefault(int(parent), []).append(number)
        if state not in "ZX":
            names[number] = before.partition("(")[2]
    found, left = {}, list(children.get(os.getpid(), []))
    while left:
        number = left.pop()
        left += children.get(number, [])
        if number in names:
            found[number] = names[number]
    return found


def reap(command: int) -> "int | None":
    """Takes in all that ended. The status of the command, if it is among them."""
    found = None
    try:
        while (ended := os.waitpid(-1, os.WNOHANG))[0]:
            if ended[0] == command:
                found = os.waitstatus_to_exitcode(ended[1])
    except ChildProcessError:
        pass
    return found


def kill_all(command: int) -> None:
    """Kills all that is below, again and again until nothing is."""
    while below := descendants():
        for number in below:
            try:
                os.kill(number, signal.SIGKILL)
            except ProcessLookupError:
                pass
        reap(command)
        time.sleep(0.01)
    reap(command)


def end_rest(command: int) -> None:
    """Waits a little for what the command left behind, and kills the rest."""
    until = time.monotonic() + GRACE
    while (below := descendants()) and time.monotonic() < until:
        time.sleep(0.02)
        reap(command)
    for number, name in below.items():
        print(f"left behind: process {number}, {name}", file=sys.stderr, flush=True)
    kill_all(command)


def supervise(seconds: float, words: list[str]) -> int:
    """Runs the command, and gives the status."""
    prctl = ctypes.CDLL(None, use_errno=True).prctl
    watched = {signal.SIGCHLD, *ENDING}
    signal.pthread_sigmask(signal.SIG_BLOCK, watched)
    for option, value in ((PR_SET_CHILD_SUBREAPER, 1), (PR_SET_PDEATHSIG, signal.SIGTERM)):
        if prctl(option, value, 0, 0, 0) != 0:
            raise OSError(ctypes.get_errno(), "prctl")
    until = time.monotonic() + seconds
    try:
        # What this one was told to ignore, as behind nohup, the command does not.
        command = os.posix_spawnp(words[0], words, os.environ, setpgroup=0, setsigmask=(),
                                  setsigdef=signal.valid_signals() - {signal.SIGKILL, signal.SIGSTOP})
    except OSError as fault:
        print(f"supervise.py: {words[0]}: {fault.strerror}", file=sys.stderr)
        return CANNOT_RUN
    while True:
        number = signal.sigtimedwait(watched, max(0.0, until - time.monotonic()))
        status = reap(command)
        if status is not None:
            end_rest(command)
            return status if status >= 0 else 128 - status
        if number is None or number.si_signo in ENDING:
            kill_all(command)
            return TIME_OVER if number is None else 128 + number.si_signo


def main() -> int:
    try:
        seconds, words = float(sys.argv[1]), sys.argv[2:]
    except (IndexError, ValueError):
        seconds, words = 0.0, []
    if not words:
        print(__doc__.split("\n\n")[0], file=sys.stderr)
        return 2
    return supervise(seconds, words)


if __name__ == "__main__":
    sys.exit(main())
