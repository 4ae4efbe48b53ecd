"""A command that runs as long as it may."""
import contextlib
import os
import signal
import subprocess
import time
from collections.abc import Callable

# How often is asked whether it still may, and how often whether its group has ended, in seconds.
EVERY, SOON = 1.0, 0.02
# What a terminal sends goes to the command anyway. This, and more, is handed on where it is sent to this process.
OF_A_TERMINAL = [getattr(signal, name) for name in ("SIGINT", "SIGQUIT") if hasattr(signal, name)]
HANDED_ON = [getattr(signal, name) for name in ("SIGTERM", "SIGHUP", "SIGUSR1", "SIGUSR2") if hasattr(signal, name)]
# What asks for no end. Windows has no KILL: its TERM is one.
OF_NO_END = [getattr(signal, name) for name in ("SIGUSR1", "SIGUSR2") if hasattr(signal, name)]
KILL = getattr(signal, "SIGKILL", signal.SIGTERM)


class Running:
    """A command from before it is begun until it has ended. Where standard input is no terminal it has a session of its
    own, and so a group, with what it begins."""

    def __init__(self) -> None:
        self.process: "subprocess.Popen[bytes] | None" = None
        self.has_group, self.early = hasattr(os, "killpg") and not os.isatty(0), list[int]()
        # Whether it was asked to end.
        self.is_to_end = False

    def begin(self, command: list[str], names: dict[str, str]) -> "subprocess.Popen[bytes]":
        self.process = process = subprocess.Popen(command, env={**os.environ, **names}, start_new_session=self.has_group)
        for number in self.early:
            self.send(process, number)
        return process

    def hand_on(self, number: int, _frame: object) -> None:
        self.is_to_end = self.is_to_end or number not in OF_NO_END
        if self.process is None:
            self.early.append(number)
        elif self.has_group or number not in OF_A_TERMINAL:
            self.send(self.process, number)

    def send(self, process: "subprocess.Popen[bytes]", number: int) -> None:
        """Sends it to all of its group, where it has one."""
        if not self.has_group:
            process.send_signal(number)
            return
        with contextlib.suppress(ProcessLookupError):
            os.killpg(process.pid, number)

    def end(self, grace: float) -> None:
        """Ends it, where it was begun and goes on: by TERM, and after so many seconds by KILL. It goes on as long as its
        group does, if it was asked to end; what it left behind at an end of its own is left."""
        process = self.process
        if process is None or process.returncode is not None and not self.is_to_end:
            return
        until = time.monotonic() + grace
        if process.returncode is None:
            self.send(process, signal.SIGTERM)
        with contextlib.suppress(subprocess.TimeoutExpired):
            process.wait(grace)
        while self.is_there(process) and time.monotonic() < until:
            time.sleep(SOON)
        if self.is_there(process):
            self.send(process, KILL)
        process.wait()

    def is_there(self, process: "subprocess.Popen[bytes]") -> bool:
        """Whether it has not ended, or any of its group, where it has one."""
        if not self.has_group:
            return process.poll() is None
        try:
            if process.poll() is not None:
                # To the first program of a container is left who lost its parent, and it is there until it was waited for.
                with contextlib.suppress(ChildProcessError):
                    while os.waitpid(-process.pid, os.WNOHANG)[0]:
                        pass
            os.killpg(process.pid, 0)
        except OSError:
            return False
        return True


def run(command: list[str], names: dict[str, str], is_lost: Callable[[], bool], grace: float) -> int | None:
    """The exit status of the command, with 128 and its number for a signal; None where `is_lost` came to say so and it
    was ended: by TERM, and after so many seconds by KILL."""
    running = Running()
    # One that is ignored here, as by nohup, is ignored by the command too. None is what other code than Python heeds.
    taken = [number for number in (*HANDED_ON, *OF_A_TERMINAL) if signal.getsignal(number) not in (signal.SIG_IGN, None)]
    before = {number: signal.signal(number, running.hand_on) for number in taken}
    if hasattr(signal, "SIGCHLD") and signal.getsignal(signal.SIGCHLD) is signal.SIG_IGN:
        # The system would keep no exit status.
        before[signal.SIGCHLD] = signal.signal(signal.SIGCHLD, signal.SIG_DFL)
    try:
        try:
            return await_status(running.begin(command, names), is_lost)
        finally:
            running.end(grace)
    finally:
        for number, handler in before.items():
            signal.signal(number, handler)


def await_status(process: "subprocess.Popen[bytes]", is_lost: Callable[[], bool]) -> int | None:
    """Its exit status once it has ended, or None once it may run no more."""
    while True:
        try:
            status = process.wait(EVERY)
            return status if status >= 0 else 128 - status
        except subprocess.TimeoutExpired:
            if is_lost():
                return None
