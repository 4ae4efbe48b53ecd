"""A Lock beside servers of lines that answer as they are told."""
import contextlib
import ctypes
import errno
import io
import os
import pty
import signal
import socket
import subprocess
import sys
import tempfile
import threading
import time
import unittest
from unittest import mock

from cinoweta import Holder, Leader, Led, Lock, LockTaken, NoAnswer, NoLeader, Ring, holder
from cinoweta.beacon import SPREAD, Beacon, port_of
from cinoweta.command import main
from cinoweta.steps import at_once
from cinoweta.waiting import Here, holder_of, is_there

from .clock import PATIENCE, took, tried
from .lines import Node, Votes, in_a_child
from .test_ring import Beside, deaf

PACKAGE = os.path.dirname(os.path.dirname(__file__))
# What a shell does for eight seconds, and heeds signals.
LOOP = "for _ in $(seq 80); do sleep 0.1; done"


class Outage:
    """Takes every line, and loses the answers to these, counted from 1."""

    def __init__(self, votes: Votes, lost: range) -> None:
        self.votes, self.lost, self.lines = votes, lost, 0

    def __call__(self, line: str) -> str | None:
        self.lines += 1
        told = self.votes(line)
        return None if self.lines in self.lost else told


class Refusing:
    """Refuses so many Stands, which are there all the same or not, and answers then."""

    def __init__(self, votes: Votes, refusal: str, count: int, stands: bool) -> None:
        self.votes, self.refusal, self.left, self.stands = votes, refusal, count, stands

    def __call__(self, line: str) -> str:
        if not line.startswith("stand") or not self.left:
            return self.votes(line)
        self.left -= 1
        if self.stands:
            self.votes(line)
        return self.refusal


class LockTest(Beside):
    def setUp(self) -> None:
        self.votes = Votes()
        self.held: list[Lock] = []
        self.addCleanup(lambda: [lock.resign() for lock in self.held])

    def lock(self, ring: Ring, **words: object) -> Lock:
        self.held.append(Lock(ring, "red", **{"patience": 0.5, **words}))
        return self.held[-1]

    def until(self, is_so: object) -> None:
        until = time.monotonic() + PATIENCE
        while not is_so():
            self.assertLess(time.monotonic(), until)
            time.sleep(0.005)

    def votes_ring(self, timeout: float = 3.0) -> tuple[Ring, list[Node]]:
        """Nodes that know the same, and elect who stands at node 1."""
        ring, nodes = self.ring(self.votes, self.votes, timeout=timeout)
        patch = mock.patch("cinoweta.election.secrets.randbelow", return_value=0)
        patch.start()
        self.addCleanup(patch.stop)
        return ring, nodes

    def test_it_is_held_within_with(self) -> None:
        ring, _ = self.votes_ring()
        with self.lock(ring, text="a worker") as held:
            bid = self.votes.stood[1]
            self.assertEqual((held.term, held.is_lost(), is_there(bid, 1.0)), (1, False, True))
            self.assertEqual(holder(ring, "red"), Holder(1, Leader(1, bid), os.getpid(), "a worker"))
            with self.assertRaises(ValueError):
                held.acquire()
        self.assertEqual((held.is_lost(), is_there(bid, 1.0), holder(ring, "red")), (True, False, None))
        with held:
            self.assertEqual(held.term, 2)

    @tried
    def test_who_holds_it_is_told_in_time(self) -> None:
        ring, _ = self.votes_ring()
        with self.lock(ring, text="nightly"):
            for wait in (0.0, 0.3):
                before = time.monotonic()
                with self.assertRaises(LockTaken) as caught, self.lock(ring, wait=wait):
                    pass
                self.assertRegex(str(caught.exception), rf"\Ared: held by process {os.getpid()} \(nightly\), which")
                took(before, wait + 1.0, wait)
        self.assertEqual(len(self.votes.stood), 1)

    def test_it_is_taken_once_the_holder_resigns(self) -> None:
        ring, _ = self.votes_ring()
        first, told = self.lock(ring), []
        first.acquire()
        threading.Timer(0.3, first.resign).start()
        second = self.lock(ring)
        second.acquire(tell=told.append)
        self.assertEqual((second.term, len(told)), (2, 1))

    def test_a_ring_that_is_away_is_waited_for(self) -> None:
        # The first line asks who leads, the second one stands, the third one asks again.
        for first in (2, 3):
            self.votes = Votes()
            ring, nodes = self.votes_ring(timeout=0.1)
            nodes[0].answer = nodes[1].answer = Outage(self.votes, range(first, 12))
            told: list[str] = []
            lock = self.lock(ring)
            lock.acquire(tell=told.append)
            self.assertEqual((lock.term, lock.is_lost(), len(self.votes.stood)), (1, False, 1), first)
            self.assertIn("waits for the ring", told[0])

    @tried
    def test_a_ring_that_never_answered_is_waited_for(self) -> None:
        ring, nodes = self.votes_ring(timeout=0.1)
        nodes[0].answer = nodes[1].answer = deaf
        lock = self.lock(ring, wait=0.5)
        before = time.monotonic()
        with self.assertRaises(NoAnswer):
            lock.acquire()
        took(before, 2.0, 0.5)
        self.assertIsNone(lock.sign)
        told: list[str] = []
        nodes[0].answer = nodes[1].answer = Outage(self.votes, range(1, 12))
        lock = self.lock(ring)
        lock.acquire(tell=told.append)
        self.assertEqual(lock.term, 1)
        self.assertIn("waits for the ring", told[0])

    def test_who_takes_it_again_waits_for_a_ring_that_is_away(self) -> None:
        ring, nodes = self.votes_ring(timeout=0.1)
        lock = self.lock(ring)
        for term, outage in ((1, Outage(self.votes, range(0))), (2, Outage(self.votes, range(1, 12)))):
            nodes[0].answer = nodes[1].answer = outage
            with lock as held:
                self.assertEqual(held.term, term)

    @tried
    def test_a_ring_that_is_away_is_waited_for_so_long(self) -> None:
        ring, nodes = self.votes_ring(timeout=0.1)
        nodes[0].answer = nodes[1].answer = lambda line: "none" if len(nodes[0].lines) == 1 else None
        before = time.monotonic()
        with self.assertRaises(NoAnswer), self.lock(ring, wait=0.5):
            pass
        took(before, 2.0, 0.5)

    def test_a_ring_that_refuses_is_waited_for(self) -> None:
        # A Stand is there or not where the device failed, and the node answers for it once it was started again.
        for fault, stands in (("6 limit", False), ("7 full", False), ("8 memory", False), ("9 failed", False),
                              ("9 failed", True), ("15 device 1", False), ("15 device 1", True)):
            self.votes = Votes()
            ring, nodes = self.votes_ring()
            nodes[0].answer = nodes[1].answer = Refusing(self.votes, f"no {fault}", 6, stands)
            told: list[str] = []
            lock = self.lock(ring)
            lock.acquire(tell=told.append)
            self.assertEqual((lock.term, lock.is_lost(), len(self.votes.stood)), (1, False, 1), (fault, stands))
            self.assertEqual(told, [f"waits for the ring: no {fault}"])

    def test_a_stand_that_a_full_node_has_is_its_own(self) -> None:
        # The answer to the first one is lost.
        ring, nodes = self.votes_ring()
        answers = iter([None])
        for node in nodes:
            node.answer = lambda line: self.votes(line) and next(answers, "no 7 full") if line.startswith("stand") else self.votes(line)
        with self.lock(ring, wait=2.0) as held:
            self.assertEqual((held.term, [*self.votes.stood]), (1, [1]))

    def test_a_node_that_does_not_answer_is_passed_by(self) -> None:
        ring, nodes = self.votes_ring(timeout=0.2)
        nodes[0].answer = deaf
        told: list[str] = []
        with mock.patch("cinoweta.election.SECONDS", 0.01), self.lock(ring) as lock:
            lock.resign()
            lock.acquire(tell=told.append)
            self.assertEqual((lock.term, lock.is_lost(), told), (2, False, []))
        self.assertEqual([bool(node.stands()) for node in nodes], [True, True])

    def test_a_ring_that_elects_nobody_is_waited_for_so_long(self) -> None:
        self.votes = Votes(elects=False)
        ring, _ = self.votes_ring()
        told: list[str] = []
        with mock.patch("cinoweta.locking.SECONDS", 0.05):
            for wait in (0.0, 0.5):
                with self.assertRaises(NoLeader):
                    self.lock(ring, wait=wait).acquire(tell=told.append)
        self.assertEqual(told, ["waits for the ring: red: no leader in 3 terms above 0"])
        self.assertEqual(len(self.votes.stood), 3)

    def test_it_is_lost_once_a_greater_term_is_known(self) -> None:
        ring, nodes = self.votes_ring(timeout=0.2)
        lock = self.lock(ring)
        with mock.patch("cinoweta.locking.EVERY", 0.0), mock.patch("cinoweta.looks.EVERY", 0.0), lock as held:
            for answer in (deaf, lambda _line: "no 8 memory"):
                for node in nodes:
                    node.answer = answer
                self.assertFalse(held.is_lost())
            for node in nodes:
                node.answer = self.votes
            self.assertFalse(held.is_lost())
            self.votes.leaders[2] = (2, 5)
            self.assertTrue(held.is_lost())
            # Another node may not know it yet.
            del self.votes.leaders[2]
            self.assertTrue(held.is_lost())

    def test_the_ring_is_asked_once_a_second(self) -> None:
        ring, nodes = self.votes_ring()
        with self.lock(ring) as held:
            before = sum(len(node.lines) for node in nodes)
            for _ in range(1_000):
                held.is_lost()
            self.assertLessEqual(sum(len(node.lines) for node in nodes), before + 1)
            # Behind a pause of its process.
            for _ in range(2):
                before = sum(len(node.lines) for node in nodes)
                time.sleep(1.1)
                for _ in range(1_000):
                    self.assertFalse(held.is_lost())
                self.assertEqual(sum(len(node.lines) for node in nodes), before + 1)

    def test_the_terms_far_below_its_own_are_retired(self) -> None:
        ring, nodes = self.votes_ring()
        # Nobody is at the port of this bid.
        self.votes.leaders[20] = (2, 0)
        with self.lock(ring, keep=3) as held:
            self.assertEqual(held.term, 21)
            self.until(lambda: [node.lines.count("retire red 18") for node in nodes] == [1, 1])
            self.assertEqual(self.votes.floor, 18)
        nodes[0].answer = nodes[1].answer = lambda line: self.votes(line) if "retire" not in line else "no 7 full"
        with held:
            self.until(lambda: [node.lines.count("retire red 19") for node in nodes] == [1, 1])
            self.assertEqual((held.term, held.is_lost(), self.votes.floor), (22, False, 18))

    def test_its_next_term_is_above_the_number_that_turned_it_away(self) -> None:
        ring, _ = self.votes_ring()
        with self.lock(ring) as held:
            held.resign(41)
            self.assertTrue(held.is_lost())
        with held:
            self.assertEqual(held.term, 42)

    def test_the_holder_that_turned_it_away_is_not_gone(self) -> None:
        ring, _ = self.votes_ring()
        late, other = self.lock(ring, wait=0.0), self.lock(ring)
        late.acquire()
        self.votes.leaders[8] = (2, 0)
        with other:
            self.assertEqual(other.term, 9)
            late.resign(other.term)
            with self.assertRaises(LockTaken):
                late.acquire()
            self.assertEqual((other.is_lost(), sorted(self.votes.stood)), (False, [1, 9]))
        with late:
            self.assertEqual(late.term, 10)

    def test_what_the_system_refuses_is_told(self) -> None:
        ring, _ = self.votes_ring()
        words = ["--ring", f"{ring.first}-{ring.ports[-1]}"]
        with tempfile.TemporaryDirectory() as folder, open("/dev/full", "w") as full:
            script = f"{folder}/script"
            os.close(os.open(script, os.O_CREAT, 0o700))
            for command, out, code, said in (
                    (["lock", "red", "--", script], sys.stdout, 126, f"cinoweta: {script}: Exec format error\n"),
                    (["latest", "red"], full, 7, "cinoweta: [Errno 28] No space left on device\n")):
                with contextlib.redirect_stdout(out), contextlib.redirect_stderr(io.StringIO()) as err:
                    self.assertEqual((main([*words, *command]), err.getvalue()), (code, said))
            # What was not printed is not tried again.
            with contextlib.suppress(OSError):
                full.close()

    def test_a_process_that_is_forked_leaves_it_to_its_parent(self) -> None:
        ring, _ = self.votes_ring()
        with self.lock(ring) as held:
            in_a_child(held.resign)
            self.assertTrue(is_there(self.votes.stood[1], 0.5))


class BeaconTest(unittest.TestCase):
    def test_what_may_be_told(self) -> None:
        for rank, text in ((-1, ""), (10, ""), (0, "a\nb"), (0, "x" * 201), (0, "ä" * 101)):
            with self.assertRaises(ValueError, msg=text):
                Beacon(rank, text)

    def test_bids_that_no_beacon_made(self) -> None:
        # 0 names the port 0, the second one the port 65,573.
        self.assertEqual(port_of(99_999_999), 65_573)
        for bid in (0, 99_999_999, 10, 999_999_999):
            self.assertFalse(is_there(bid, 0.5), bid)

    @tried
    def test_it_answers_to_its_own_bid_alone(self) -> None:
        beacon = Beacon(3, "ä" * 100)
        self.addCleanup(beacon.close)
        self.assertEqual(beacon.bid // 100_000_000, 3)
        self.assertTrue(is_there(beacon.bid, 1.0))
        other, before = beacon.bid + (1 if port_of(beacon.bid + 1) == port_of(beacon.bid) else -1), time.monotonic()
        self.assertFalse(is_there(other, 9.0))
        took(before, 5.0)

    def test_it_goes_on_where_descriptors_were_wanting(self) -> None:
        beacon = Beacon(0, "")
        self.addCleanup(beacon.close)
        with mock.patch("socket.socket.accept", side_effect=OSError(24, "Too many open files")) as accept:
            self.assertFalse(is_there(beacon.bid, 1.0))
            # It is not asked for again and again without a pause.
            self.assertTrue(2 <= accept.call_count < 100)
        self.assertTrue(is_there(beacon.bid, 1.0))

    def test_one_fault_is_not_the_end_of_who_holds_it(self) -> None:
        beacon = Beacon(0, "")
        self.addCleanup(beacon.close)
        connect, faults = socket.create_connection, iter([OSError(24, "Too many open files"), TimeoutError()])

        def falters(*words: object) -> socket.socket:
            for fault in faults:
                raise fault
            return connect(*words)

        with mock.patch("socket.create_connection", side_effect=falters):
            self.assertTrue(is_there(beacon.bid, 1.0))

    def test_who_could_not_be_asked_is_not_gone(self) -> None:
        beacon = Beacon(0, "")
        led = Led(1, Leader(1, beacon.bid))
        with mock.patch("socket.create_connection", side_effect=OSError(errno.EMFILE, "Too many open files")):
            self.assertTrue(is_there(beacon.bid, 0.2))
            self.assertIsNone(at_once(holder_of(Here(), led, 0.2)))
        beacon.close()
        # Once it may be asked, it is seen that it is not there; and others are silent by themselves.
        self.assertFalse(is_there(beacon.bid, 0.2))
        with mock.patch("socket.create_connection", side_effect=TimeoutError("timed out")):
            self.assertFalse(is_there(beacon.bid, 0.2))

    def test_who_asked_late_asks_again(self) -> None:
        server = socket.create_server(("127.0.0.1", 0))
        self.addCleanup(server.close)
        bid = server.getsockname()[1] * SPREAD

        def answers() -> None:
            # As a beacon does where it is asked nothing in time; and then as one of this bid.
            for answer in (b"", b"%d\n" % bid):
                with server.accept()[0] as connection:
                    connection.recv(32)
                    time.sleep(0.0 if answer else 0.5)
                    connection.sendall(answer)

        threading.Thread(target=answers, daemon=True).start()
        self.assertTrue(is_there(bid, 5.0))


def sleeps(seconds: str) -> list[int]:
    """The processes that sleep so long."""
    found = []
    for process in filter(str.isdecimal, os.listdir("/proc")):
        with contextlib.suppress(OSError), open(f"/proc/{process}/cmdline", "rb") as file:
            found.extend([int(process)] * (file.read() == f"sleep\0{seconds}\0".encode()))
    return found


def end_all(processes: list[int]) -> int:
    """Ends these, and tells how many they are."""
    for process in processes:
        os.kill(process, signal.SIGKILL)
    return len(processes)


class ProcessTest(unittest.TestCase):
    def test_a_signal_that_is_ignored_is_ignored_by_the_command(self) -> None:
        command = ["sh", "-c", "kill -HUP $PPID; kill -INT $PPID; sleep 0.2; kill -HUP $$; kill -INT $$; exit 7"]
        code = f"from cinoweta.process import run; print(run({command}, {{}}, lambda: False, 1.0))"

        def ignore() -> None:
            for number in (signal.SIGHUP, signal.SIGINT):
                signal.signal(number, signal.SIG_IGN)

        told = subprocess.run([sys.executable, "-c", code], cwd=PACKAGE, text=True, preexec_fn=ignore,
                              capture_output=True, timeout=30)
        self.assertEqual((told.returncode, told.stdout), (0, "7\n"), told.stderr)

    def begin(self, script: str, is_lost: str = "False", grace: float = 1.0, **words: object) -> "subprocess.Popen[str]":
        """A process that runs this script of a shell, and prints its status behind what that prints."""
        code = f"from cinoweta.process import run; print(run(['sh', '-c', {script!r}], {{}}, lambda: {is_lost}, {grace}))"

        def heed() -> None:
            # Whatever the tests were begun by.
            for number in (signal.SIGINT, signal.SIGQUIT):
                signal.signal(number, signal.SIG_DFL)

        process = subprocess.Popen([sys.executable, "-c", code], cwd=PACKAGE, text=True, stdout=subprocess.PIPE,
                                   **{"stdin": subprocess.DEVNULL, "stderr": subprocess.DEVNULL, "preexec_fn": heed, **words})
        self.addCleanup(process.stdout.close)
        self.addCleanup(process.wait)
        self.addCleanup(process.kill)
        return process

    def test_signals_are_handed_on(self) -> None:
        for name in ("TERM", "HUP", "USR1", "USR2", "QUIT", "INT"):
            process = self.begin(f"trap 'echo ends; exit 4' {name}; echo in; {LOOP}")
            self.assertEqual(process.stdout.readline(), "in\n")
            process.send_signal(getattr(signal, f"SIG{name}"))
            self.assertEqual((process.stdout.read(), process.wait(10)), ("ends\n4\n", 0), name)

    def test_what_the_command_began_is_ended_with_it(self) -> None:
        seconds = f"600.{os.getpid()}"
        process = self.begin(f"echo in; sleep {seconds} > /dev/null; true")
        self.assertEqual(process.stdout.readline(), "in\n")
        time.sleep(0.2)
        self.assertEqual(len(sleeps(seconds)), 1)
        process.terminate()
        self.assertEqual((process.stdout.read(), process.wait(10)), ("143\n", 0))
        self.assertEqual(end_all(sleeps(seconds)), 0)
        # Behind a loss, too, and where it does not heed.
        process = self.begin(f"(trap '' TERM; exec sleep {seconds} > /dev/null) & wait", "True")
        self.assertEqual((process.wait(10), process.stdout.read()), (0, "None\n"))
        self.assertEqual(end_all(sleeps(seconds)), 0)

    def test_what_a_command_left_behind_goes_on(self) -> None:
        seconds = f"601.{os.getpid()}"
        process = self.begin(f"trap '' USR1; sleep {seconds} > /dev/null & sleep 0.2; kill -USR1 $PPID; sleep 0.2; exit 3")
        self.assertEqual((process.stdout.read(), process.wait(10)), ("3\n", 0))
        self.assertEqual(end_all(sleeps(seconds)), 1)

    @unittest.skipUnless(sys.platform == "linux", "no program adopts who lost its parent")
    @tried
    def test_who_is_left_to_it_is_not_waited_for(self) -> None:
        def adopt() -> None:
            # PR_SET_CHILD_SUBREAPER, as for the first program of a container.
            ctypes.CDLL(None).prctl(36, 1)

        process = self.begin(f"sleep 60 > /dev/null & trap 'exit 3' TERM; echo in; {LOOP}", grace=8.0, preexec_fn=adopt)
        self.assertEqual(process.stdout.readline(), "in\n")
        time.sleep(0.2)
        begun = time.monotonic()
        process.terminate()
        self.assertEqual((process.stdout.read(), process.wait(10)), ("3\n", 0))
        took(begun, 4.0)

    def test_a_terminal_has_one_group(self) -> None:
        own, other = pty.openpty()
        self.addCleanup(os.close, own)
        process = self.begin(f"trap 'exit 9' INT QUIT; echo $$; {LOOP}", stdin=other)
        os.close(other)
        command = int(process.stdout.readline())
        self.assertEqual(os.getpgid(command), os.getpgid(process.pid))
        # What came before it was known to have begun is sent to it.
        time.sleep(1.0)
        for number in (signal.SIGINT, signal.SIGQUIT):
            # As the terminal would, which tells the command itself.
            process.send_signal(number)
        time.sleep(0.5)
        process.terminate()
        self.assertEqual((process.stdout.read(), process.wait(10)), ("143\n", 0))

    def test_an_exit_status_is_told_though_ends_of_children_are_ignored(self) -> None:
        process = self.begin("exit 7", preexec_fn=lambda: signal.signal(signal.SIGCHLD, signal.SIG_IGN))
        self.assertEqual((process.stdout.read(), process.wait(10)), ("7\n", 0))

    def test_a_signal_within_the_grace_keeps_no_command_from_its_end(self) -> None:
        process = self.begin(f"trap '' TERM; echo $$; {LOOP}", "1 / 0")
        command = int(process.stdout.readline())
        time.sleep(1.5)
        for _ in range(2):
            process.terminate()
        self.assertEqual(process.wait(10), 1)
        with self.assertRaises(ProcessLookupError):
            os.kill(command, 0)


if __name__ == "__main__":
    unittest.main()
