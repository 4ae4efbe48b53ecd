"""What a Lock and a Ring do from several threads, in processes that are forked, and where calls are wrong."""
import contextlib
import io
import os
import signal
import socket
import subprocess
import sys
import threading
import time
import unittest
from unittest import mock

from cinoweta import (Cancelled, Holder, Leader, Lock, LockTaken, NoAnswer, NoLeader, NotHeld, NoTerm, Refused, Resigned,
                      Ring, TooFar, WrongRing, status)
from cinoweta.command import main
from cinoweta.host import is_own
from cinoweta.looks import Looks
from cinoweta.process import run
from cinoweta.waiting import HANDED, is_there

from .clock import PATIENCE, took, tried
from .lines import Groups, Node, Votes, fork_idle
from .test_ring import Beside, deaf

PACKAGE = os.path.dirname(os.path.dirname(__file__))


class BesideLock(Beside):
    def setUp(self) -> None:
        self.votes = Votes()
        self.held: list[Lock] = []
        self.addCleanup(lambda: [lock.resign() for lock in self.held])
        patch = mock.patch("cinoweta.election.secrets.randbelow", return_value=0)
        patch.start()
        self.addCleanup(patch.stop)

    def votes_ring(self, timeout: float = 3.0) -> tuple[Ring, list[Node]]:
        return self.ring(self.votes, self.votes, timeout=timeout)

    def lock(self, ring: Ring, group: str = "red", **words: object) -> Lock:
        self.held.append(Lock(ring, group, **words))
        return self.held[-1]

    def until(self, is_so: object) -> None:
        until = time.monotonic() + PATIENCE
        while not is_so():
            self.assertLess(time.monotonic(), until)
            time.sleep(0.005)

    def fault_of(self, act: object) -> "tuple[threading.Thread, list[BaseException]]":
        """A thread that does this, and the fault that came of it."""
        faults: list[BaseException] = []

        def run() -> None:
            try:
                act()
            except BaseException as fault:
                faults.append(fault)

        thread = threading.Thread(target=run, daemon=True)
        thread.start()
        return thread, faults


class ThreadsTest(BesideLock):
    def test_of_two_threads_one_acquires(self) -> None:
        ring, _ = self.votes_ring()
        both = threading.Barrier(2)

        made = []
        make = Lock.new_sign

        def new_sign(lock: Lock) -> object:
            time.sleep(0.1)
            made.append(make(lock))
            return made[-1]

        lock = self.lock(ring)
        with mock.patch.object(Lock, "new_sign", new_sign):
            runs = [self.fault_of(lambda: (both.wait(), lock.acquire())) for _ in range(2)]
            for thread, _ in runs:
                thread.join(10.0)
        faults = [fault for _, faults in runs for fault in faults]
        self.assertEqual(([type(fault) for fault in faults], len(made), lock.term), ([ValueError], 1, 1))
        self.assertIn("held, or waited for", str(faults[0]))
        lock.resign()
        self.assertFalse(is_there(made[0].bid, 0.5))

    def test_a_question_of_another_thread_keeps_its_session(self) -> None:
        ring, nodes = self.votes_ring()
        nodes[0].answer = lambda line: time.sleep(0.5) or self.votes(line)
        thread, faults = self.fault_of(lambda: ring.latest("red", 1))
        self.until(lambda: nodes[0].lines)
        ring.close()
        thread.join(5.0)
        self.assertEqual((faults, nodes[0].lines, ring.session), ([], ["latest red"], None))

    @tried
    def test_who_is_resigned_while_it_waits_does_not_hold_it(self) -> None:
        ring, _ = self.votes_ring()
        first, second = self.lock(ring), self.lock(ring)
        first.acquire()
        thread, faults = self.fault_of(second.acquire)
        self.until(lambda: second.sign is not None)
        time.sleep(0.2)
        before = time.monotonic()
        second.resign()
        thread.join(5.0)
        self.assertEqual(([type(fault) for fault in faults], second.is_lost(), second.term), ([Resigned], True, 0))
        took(before, 1.0)
        # Nor where it was resigned between its election and its end.
        first.resign()
        run = mock.AsyncMock(side_effect=lambda *_words: (second.resign(), mock.Mock(is_mine=True, term=9))[1])
        with mock.patch("cinoweta.locking.Campaign.run", run), self.assertRaises(Resigned):
            second.acquire()
        self.assertEqual((second.is_lost(), second.term), (True, 0))

    @tried
    def test_a_wait_is_cancelled(self) -> None:
        ring, nodes = self.votes_ring()
        first, second, cancel = self.lock(ring), self.lock(ring), threading.Event()
        first.acquire()
        for answer in (self.votes, lambda _line: time.sleep(30.0)):
            nodes[0].answer = nodes[1].answer = answer
            cancel.clear()
            thread, faults = self.fault_of(lambda: second.acquire(cancel=cancel))
            time.sleep(0.3)
            before = time.monotonic()
            cancel.set()
            thread.join(10.0)
            took(before, 1.0)
            self.assertEqual(([type(fault) for fault in faults], second.sign, second.term), ([Cancelled], None, 0))
        nodes[0].answer = nodes[1].answer = self.votes
        first.resign()
        second.acquire(cancel=threading.Event())
        self.assertEqual(second.term, 2)


class ForkTest(BesideLock):
    def in_a_child(self, act: object) -> None:
        """Does this in a process that is forked; it ends with 0 where nothing was raised."""
        child = os.fork()
        if child == 0:
            code = 1
            try:
                act()
                code = 0
            finally:
                os._exit(code)
        self.assertEqual(os.waitpid(child, 0)[1], 0)

    def test_a_process_that_is_forked_holds_nothing(self) -> None:
        ring, _ = self.votes_ring()
        lock = self.lock(ring)
        lock.acquire()
        bid = self.votes.stood[1]

        def act() -> None:
            assert lock.is_lost()
            for look in (lambda: lock.term, lambda: lock.run(["true"], 1.0)):
                try:
                    look()
                    raise AssertionError("a term")
                except NotHeld:
                    pass
            # It may wait for its parent, as any other.
            lock.wait = 0.0
            try:
                lock.acquire()
                raise AssertionError("two hold it")
            except LockTaken as fault:
                assert fault.holder.pid == os.getppid()
            lock.resign()

        self.in_a_child(act)
        self.assertEqual((lock.is_lost(), lock.term, is_there(bid, 1.0)), (False, 1, True))

    @tried
    def test_who_waits_is_told_at_once_of_the_end_of_one_that_forked(self) -> None:
        # Its port is not open in the child, which would answer nobody.
        code = ("import os, time\nfrom cinoweta.beacon import Beacon\nbeacon = Beacon(0, '')\nchild = os.fork()\n"
                "if child: print(beacon.bid, child, flush=True)\ntime.sleep(30)")
        process = subprocess.Popen([sys.executable, "-c", code], cwd=PACKAGE, stdout=subprocess.PIPE, text=True)
        bid, child = map(int, process.stdout.readline().split())
        self.addCleanup(os.kill, child, signal.SIGKILL)
        self.assertTrue(is_there(bid, 5.0))
        process.kill()
        process.wait()
        process.stdout.close()
        before = time.monotonic()
        self.assertFalse(is_there(bid, 3.0))
        took(before, 1.0)

    def test_a_child_keeps_no_session_of_its_parent_open(self) -> None:
        ring, nodes = self.votes_ring()
        ring.stand("red", 1, 5)
        self.assertEqual(len(nodes[0].present), 1)
        fork_idle(self)
        ring.close()
        self.until(lambda: not nodes[0].present)

    def test_what_another_thread_held_is_free_in_a_child(self) -> None:
        ring, nodes = self.votes_ring()
        nodes[0].answer = lambda line: time.sleep(1.0) or self.votes(line)
        thread, _ = self.fault_of(lambda: ring.latest("red", 1))
        self.until(lambda: nodes[0].lines)
        with HANDED.mutex:
            self.in_a_child(lambda: (ring.latest("red", 2), signal.alarm(10), HANDED.get(("", 0, ""))))
        thread.join(5.0)


class LossTest(BesideLock):
    def test_it_is_told_once_it_is_lost(self) -> None:
        votes = {"red": Votes(), "blue": Votes()}
        ring, _ = self.ring(*[lambda line: votes[line.split()[1]](line)] * 2)
        told: list[Lock] = []
        with mock.patch("cinoweta.looks.EVERY", 0.05), mock.patch.object(Looks, "go_on", autospec=True, side_effect=Looks.go_on) as go_on:
            locks = [self.lock(ring, name, on_lost=told.append) for name in votes]
            for lock in locks:
                lock.acquire()
            time.sleep(0.3)
            # One thread looks for both.
            self.assertEqual((told, go_on.call_count), ([], 1))
            votes["red"].leaders[2] = (2, 9)
            self.until(lambda: told)
            self.assertEqual((told, locks[0].is_lost(), locks[1].is_lost()), ([locks[0]], True, False))
            locks[1].resign()
            self.until(lambda: not ring.looks.is_going_on)
            # And again for who takes one later.
            locks[1].acquire()
            votes["blue"].leaders[9] = (2, 9)
            self.until(lambda: told[1:])
        self.assertEqual((told, go_on.call_count), (locks, 2))

    def test_a_fault_of_who_is_told_ends_nothing(self) -> None:
        ring, _ = self.votes_ring()
        with mock.patch("cinoweta.looks.EVERY", 0.05), self.assertLogs("cinoweta", "ERROR"):
            lock = self.lock(ring, on_lost=lambda _lock: 1 / 0)
            lock.acquire()
            self.votes.leaders[2] = (2, 9)
            self.until(lambda: lock.is_lost() and not ring.looks.is_going_on)

    def test_who_ends_its_thread_where_it_is_told_keeps_no_other_lock_from_it(self) -> None:
        groups, told = Groups(), list[Lock]()
        ring, _ = self.ring(groups, groups)
        with mock.patch("cinoweta.looks.EVERY", 0.05), self.assertLogs("cinoweta", "ERROR") as logs:
            for name, on_lost in ("red", lambda _lock: sys.exit(1)), ("blue", told.append):
                self.lock(ring, name, on_lost=on_lost).acquire()
            groups.votes["red"].leaders[2] = (2, 9)
            self.until(lambda: logs.records)
            groups.votes["blue"].leaders[2] = (2, 9)
            self.until(lambda: told)
        self.assertIn("red: on_lost", logs.output[0])

    def test_a_lock_that_got_no_thread_leaves_the_next_one_to_try(self) -> None:
        ring, _ = self.votes_ring()
        told: list[Lock] = []
        lock = self.lock(ring, on_lost=told.append)

        def begin(steps: object) -> None:
            steps.close()
            raise RuntimeError("can't start new thread")

        with mock.patch("cinoweta.looks.EVERY", 0.05):
            with mock.patch.object(ring, "begin", begin), self.assertRaises(RuntimeError):
                lock.acquire()
            self.assertEqual((lock.is_lost(), lock.sign, ring.looks.held), (True, None, {}))
            lock.acquire()
            self.votes.leaders[9] = (2, 9)
            self.until(lambda: told)

    def test_a_loss_is_told_though_another_question_had_a_fault(self) -> None:
        votes = {"red": Votes(), "blue": Votes()}
        ring, nodes = self.ring(*[lambda line: votes[line.split()[1]](line)] * 2)
        told: list[Lock] = []
        with mock.patch.object(ring, "begin", side_effect=lambda steps: steps.close()):
            red, blue = [self.lock(ring, name, on_lost=told.append) for name in votes]
            red.acquire()
            blue.acquire()
        votes["red"].leaders[2] = (2, 9)
        nodes[0].answer = nodes[1].answer = lambda line: votes["red"](line) if line == "latest red" else "what"
        red.asked = blue.asked = 0.0
        with self.assertRaises(WrongRing):
            red.is_lost()
        self.assertEqual((told, red.is_lost()), ([red], True))
        # What is no answer gives no lock more time than its own.
        blue.give_up, blue.told, blue.asked = 0.5, time.monotonic() - 1.0, 0.0
        self.assertEqual((blue.is_lost(), told), (True, [red, blue]))

    def test_a_fault_ends_no_looks(self) -> None:
        ring, nodes = self.votes_ring()
        told: list[Lock] = []
        with mock.patch("cinoweta.looks.EVERY", 0.05), self.assertLogs("cinoweta", "WARNING"):
            self.lock(ring, on_lost=told.append).acquire()
            with mock.patch.object(ring.looks.asks, "do_latest", side_effect=RuntimeError("what")):
                time.sleep(0.3)
            self.votes.leaders[2] = (2, 9)
            self.until(lambda: told)

    def test_a_node_that_does_not_know_the_term_tells_nothing(self) -> None:
        ring, nodes = self.votes_ring()
        with mock.patch("cinoweta.locking.EVERY", 0.0), mock.patch("cinoweta.looks.EVERY", 0.0):
            lock = self.lock(ring, give_up=60.0)
            lock.acquire()
            self.assertFalse(lock.is_lost())
            told = lock.told
            nodes[1].answer = lambda _line: "none"
            self.votes.leaders[2] = (2, 9)
            self.assertEqual((lock.is_lost(), lock.told), (False, told))
            # Another one does.
            self.assertTrue(lock.is_lost())

    def test_each_node_is_asked_in_turn(self) -> None:
        # One lags behind, or finds no memory to answer.
        for late, answer in ((0, "term 1 leader 1 {}"), (1, "term 1 leader 1 {}"), (0, "no 8 memory"), (1, "no 8 memory")):
            self.votes = Votes()
            ring, nodes = self.votes_ring()
            lock = self.lock(ring)
            with mock.patch("cinoweta.locking.EVERY", 0.0), mock.patch("cinoweta.looks.EVERY", 0.0):
                lock.acquire()
                told = answer.format(self.votes.stood[1])
                nodes[late].answer = lambda _line, told=told: told
                self.votes.leaders[2] = (2, 9)
                self.assertIn(True, [lock.is_lost() for _ in range(3)], (late, answer))

    def test_each_node_is_asked_in_turn_for_each_lock(self) -> None:
        groups = Groups()
        ring, nodes = self.ring(groups, groups)
        red, blue = [self.lock(ring, name) for name in ("red", "blue")]
        for lock in (red, blue):
            lock.acquire()
        nodes[0].answer = {line: groups(line) for line in ("latest red", "latest blue")}.get
        groups.votes["red"].leaders[2] = (2, 9)
        # Two threads would look in turn so, half a second apart.
        told: list[Lock] = []
        for lock in (red, blue) * 3:
            lock.asked = 0.0
            told.extend([lock] * lock.is_lost())
        self.assertEqual({*told}, {red})

    def test_a_node_that_does_not_answer_keeps_no_look_from_another_one(self) -> None:
        for silent in (0, 1):
            self.votes = Votes()
            ring, nodes = self.votes_ring()
            lock = self.lock(ring)
            with mock.patch("cinoweta.locking.EVERY", 0.0), mock.patch("cinoweta.looks.EVERY", 0.0):
                lock.acquire()
                nodes[silent].answer = lambda _line: time.sleep(30.0)
                for _ in range(3):
                    told = lock.told
                    self.assertFalse(lock.is_lost())
                    self.assertGreater(lock.told, told)
            lock.resign()

    def test_what_is_resigned_is_looked_at_no_more(self) -> None:
        ring, _ = self.votes_ring()
        lock, add = self.lock(ring), Looks.add

        def late(looks: Looks, held: Lock) -> None:
            threading.Thread(target=lock.resign, daemon=True).start()
            time.sleep(0.3)
            add(looks, held)

        with mock.patch.object(Looks, "add", late):
            lock.acquire()
        self.until(lambda: lock.is_lost())
        self.until(lambda: not ring.looks.held)

    @tried
    def test_many_locks_at_a_ring_that_is_away_are_looked_at_within_a_second(self) -> None:
        ring, nodes = self.votes_ring(timeout=10.0)
        locks = [self.lock(ring, give_up=60.0) for _ in range(20)]
        for number, lock in enumerate(locks):
            lock.group = f"group-{number}"
            self.votes.leaders.clear()
            self.votes.stood.clear()
            lock.acquire()
        nodes[0].answer = nodes[1].answer = lambda _line: time.sleep(30.0)
        for lock in locks:
            lock.asked -= 5.0
        before = time.monotonic()
        self.assertEqual([lock.is_lost() for lock in locks], [False] * 20)
        took(before, 1.6)

    def test_locks_for_which_one_look_has_no_time_are_looked_at_in_turn(self) -> None:
        groups, names = Groups(), ["red", "blue", "green", "grey", "pink", "teal"]
        ring, nodes = self.ring(groups, groups)
        with mock.patch("cinoweta.looks.EVERY", 0.1), mock.patch("cinoweta.looks.AT_MOST", 0.2):
            for name in names:
                self.lock(ring, name, on_lost=lambda _lock: None).acquire()
            for node in nodes:
                node.answer = lambda line: time.sleep(0.06) or groups(line)
                node.lines.clear()
            self.until(lambda: {f"latest {name}" for name in names} <= {*nodes[0].lines, *nodes[1].lines})
            before = {lock: lock.told for lock in self.held}
            self.until(lambda: all(lock.told > before[lock] for lock in self.held))

    def test_a_question_with_a_fault_keeps_no_other_lock_from_its_own(self) -> None:
        groups, told = Groups(), list[Lock]()
        ring, nodes = self.ring(groups, groups)
        with mock.patch("cinoweta.looks.EVERY", 0.05), self.assertLogs("cinoweta", "WARNING"):
            for name in "red", "blue":
                self.lock(ring, name, on_lost=told.append).acquire()
            ask = ring.looks.asks.do_latest

            async def falters(group: str) -> object:
                return 1 / 0 if group == "red" else await ask(group)

            with mock.patch.object(ring.looks.asks, "do_latest", falters):
                groups.votes["blue"].leaders[2] = (2, 9)
                self.until(lambda: told)

    @tried
    def test_who_is_cut_off_gives_up(self) -> None:
        ring, nodes = self.votes_ring(timeout=0.2)
        with mock.patch("cinoweta.locking.EVERY", 0.05), mock.patch("cinoweta.looks.EVERY", 0.05):
            told: list[Lock] = []
            lock, other = self.lock(ring, give_up=1.0, on_lost=told.append), self.lock(ring)
            lock.acquire()
            for _ in range(15):
                # As long as a node tells, it goes on.
                self.assertFalse(lock.is_lost())
                time.sleep(0.1)
            nodes[0].answer = nodes[1].answer = deaf
            before = time.monotonic()
            while not lock.is_lost():
                self.assertLess(time.monotonic() - before, 5.0)
                time.sleep(0.02)
            took(before, 2.0, 0.8)
            self.until(lambda: told)
            nodes[0].answer = nodes[1].answer = self.votes
            other.acquire()
            nodes[0].answer = nodes[1].answer = deaf
            time.sleep(1.5)
            self.assertEqual((other.is_lost(), told), (False, [lock]))
        with self.assertRaises(ValueError):
            Lock(ring, "red", give_up=0.0)

    def test_a_question_for_another_lock_keeps_none_from_giving_up(self) -> None:
        ring, nodes = self.ring(*[Groups()] * 2)
        red, blue = [self.lock(ring, name, give_up=1.0) for name in ("red", "blue")]
        for lock in (red, blue):
            lock.acquire()
            lock.told, lock.asked = lock.told - 5.0, lock.asked - 5.0
        nodes[0].answer = nodes[1].answer = lambda _line: time.sleep(30.0)
        thread, _ = self.fault_of(red.is_lost)
        self.until(lambda: len(nodes[0].lines) + len(nodes[1].lines) > 0 and nodes[0].lines[-1] == "latest red")
        self.assertTrue(blue.is_lost())
        thread.join(5.0)

    @tried
    def test_a_name_that_is_not_found_bounds_no_look(self) -> None:
        ring, _ = self.votes_ring()
        near, ends, find, names = Ring(ring.first, ring.ports[-1], host="localhost"), threading.Event(), socket.getaddrinfo, []
        self.addCleanup(ends.set)
        told: list[Lock] = []
        locks = [self.lock(near, give_up=1.0), self.lock(near, "blue", give_up=1.0, on_lost=told.append)]
        for lock in locks:
            self.votes.stood.clear()
            self.votes.leaders.clear()
            lock.acquire()

        def cut_off(host: str, *words: object, **more: object) -> object:
            if host == "localhost":
                names.append(host)
                ends.wait(6.0)
            return find(host, *words, **more)

        with mock.patch("socket.getaddrinfo", cut_off):
            before = time.monotonic()
            while not locks[0].is_lost() or not told:
                time.sleep(0.1)
            took(before, 3.0)
            # All wait for one.
            self.assertEqual(len(names), 1)
            with self.assertRaisesRegex(NoAnswer, "localhost is not found in time"):
                status.ask("localhost", 1, "/health", 0.1)

    @tried
    def test_the_command_is_ended_where_it_gives_up(self) -> None:
        ring, nodes = self.votes_ring()
        words = ["--ring", f"{ring.first}-{ring.ports[-1]}", "lock", "--give-up", "1", "red", "--", "sleep", "60"]

        def run_cut_off(*what: object) -> int | None:
            nodes[0].answer = nodes[1].answer = deaf
            return run(*what)

        before = time.monotonic()
        with contextlib.redirect_stderr(io.StringIO()) as err, mock.patch("cinoweta.lock.run", run_cut_off):
            self.assertEqual(main(words), 5)
        took(before, 8.0)
        self.assertIn("term 1 is over: no node answered for 1.0 seconds", err.getvalue())


class WordsTest(BesideLock):
    def test_acquire_takes_keywords_alone(self) -> None:
        ring, _ = self.votes_ring()
        with self.assertRaises(TypeError):
            self.lock(ring).acquire(False)
        self.assertEqual(self.votes.stood, {})

    def test_faults_have_fields(self) -> None:
        ring, _ = self.votes_ring()
        with self.lock(ring, text="nightly") as held, self.assertRaises(LockTaken) as caught:
            self.lock(ring, wait=0.0).acquire()
        self.assertEqual(caught.exception.holder, Holder(held.term, Leader(1, self.votes.stood[1]), os.getpid(), "nightly"))
        self.assertEqual((LockTaken("x").holder, NoLeader("x").faults), (None, []))

    def test_a_node_that_there_is_not(self) -> None:
        ring, nodes = self.votes_ring()
        for node in (9, 0, -1):
            with self.assertRaisesRegex(ValueError, rf"\Anode {node}: the ring has the nodes 1 to 2\Z"):
                ring.stand("red", 1, 1, node=node)
        self.assertEqual(nodes[0].lines, [])

    def test_localhost_is_this_host(self) -> None:
        ring, _ = self.ring(self.votes, self.votes)
        for host in ("localhost", "LocalHost"):
            near = Ring(ring.first, ring.ports[-1], host=host)
            with self.lock(near, wait=5.0) as held:
                self.assertEqual((held.across, held.is_lost()), (False, False))
        self.assertEqual([is_own("localhost."), is_own("a.localhost"), is_own("127.0.0.9")], [True, False, True])
        for host in ("localhost.example", "ring"):
            with self.assertRaisesRegex(WrongRing, "tell its port"):
                Lock(Ring(7101, 7103, host=host), "red")

    def test_a_command_that_stands_before_its_dashes(self) -> None:
        for words in (["lock", "x", "true"], ["lock", "x", "sleep", "60"], ["lock", "x"]):
            with contextlib.redirect_stderr(io.StringIO()) as err, self.assertRaises(SystemExit) as caught:
                main(["--ring", "7101-7103", *words])
            self.assertEqual(caught.exception.code, 2)
            self.assertIn("behind --, as in: cinoweta lock jobs -- ./work", err.getvalue())
        with contextlib.redirect_stderr(io.StringIO()) as err, self.assertRaises(SystemExit):
            main(["latest", "x", "--what"])
        self.assertIn("unrecognized arguments: --what", err.getvalue())

    def test_takes_losses_and_resigns_are_logged(self) -> None:
        ring, _ = self.votes_ring()
        with self.assertLogs("cinoweta", "INFO") as logs, mock.patch("cinoweta.locking.EVERY", 0.0), \
                mock.patch("cinoweta.looks.EVERY", 0.0):
            lock = self.lock(ring)
            with lock:
                pass
            with lock:
                self.votes.leaders[3] = (2, 9)
                self.assertTrue(lock.is_lost())
        self.assertEqual([record.getMessage() for record in logs.records],
                         ["red: holds the lock in term 1", "red: resigned", "red: holds the lock in term 2",
                          "red: lost the lock in term 2: a greater term is known: 3"])
        # Nobody who did not ask for it is told.
        code = "import cinoweta, logging; logging.getLogger('cinoweta').warning('told')"
        told = subprocess.run([sys.executable, "-c", code], cwd=PACKAGE, capture_output=True, text=True, timeout=120)
        self.assertEqual((told.returncode, told.stderr), (0, ""))

    def test_what_it_is_is_told(self) -> None:
        ring, _ = self.votes_ring()
        name = f"Ring({ring.first}, {ring.ports[-1]}, host='127.0.0.1')"
        lock = self.lock(ring)
        self.assertEqual((repr(ring), repr(lock)), (name, f"Lock({name}, 'red': not held)"))
        with lock:
            self.assertEqual(repr(lock), f"Lock({name}, 'red': held in term 1)")
        self.assertEqual(repr(Ring(7101, 7103, host="a", status=7100)), "Ring(7101, 7103, host='a', status=7100)")

    def test_it_is_imported_where_there_is_no_hup_and_no_fork(self) -> None:
        code = ("import os, signal, selectors, select; del signal.SIGHUP, os.register_at_fork, os.fork, selectors.PollSelector\n"
                "del select.poll\nimport cinoweta, cinoweta.command, cinoweta.aio\nfrom cinoweta.beacon import Beacon\n"
                "from cinoweta.waiting import is_there\nbeacon = Beacon(0, '')\nassert is_there(beacon.bid, 5.0)")
        told = subprocess.run([sys.executable, "-c", code], cwd=PACKAGE, capture_output=True, text=True, timeout=120)
        self.assertEqual((told.returncode, told.stderr), (0, ""))


class BoundTest(BesideLock):
    @tried
    def test_the_wait_bounds_a_ring_that_elects_nobody(self) -> None:
        # As a full one does, which takes Stands at another node.
        self.votes.elects = False
        ring, nodes = self.votes_ring()
        for wait, most in ((0.0, 4.0), (3.0, 5.5)):
            before = time.monotonic()
            with self.assertRaises((NoLeader, NoAnswer)):
                self.lock(ring, wait=wait).acquire()
            took(before, most, wait, what=wait)
        with mock.patch("cinoweta.locking.SECONDS", 0.1), self.assertRaisesRegex(NoLeader, "in 3 terms"):
            self.lock(ring, wait=0.0).acquire()

    @tried
    def test_the_wait_bounds_nodes_that_do_not_answer(self) -> None:
        ring, _ = self.ring(deaf, lambda _line: time.sleep(30.0), timeout=10.0)
        before = time.monotonic()
        with self.assertRaises(NoAnswer):
            self.lock(ring, wait=3.0).acquire()
        took(before, 6.0, 2.5)


class RoomTest(BesideLock):
    """A node that has no room for a Stand, until it retires some terms."""

    def full(self, refusal: str) -> tuple[Ring, list[Node]]:
        def answer(line: str) -> str:
            is_full = line.startswith("stand") and self.votes.floor < max(self.votes.leaders, default=0)
            return refusal if is_full else self.votes(line)

        return self.ring(answer, answer)

    def test_it_retires_what_it_may_and_is_asked_once_more(self) -> None:
        for refusal in ("no 6 limit", "no 7 full"):
            self.votes = Votes()
            self.votes.leaders[5] = (2, 30)
            ring, nodes = self.full(refusal)
            election = ring.campaign("red", 5, node=1, seconds=0.1)
            self.assertEqual((election.term, election.is_mine, self.votes.floor), (6, True, 5))
            self.assertEqual(nodes[0].stands(), [f"stand red 6 {self.votes.stood[6]}"] * 2)

    def test_it_is_asked_no_more_where_nothing_may_be_retired(self) -> None:
        for refusal in ("no 6 limit", "no 7 full"):
            for leaders in ({}, {1: (2, 30)}):
                self.votes = Votes()
                self.votes.leaders.update(leaders)
                ring, nodes = self.ring(lambda line: refusal if line.startswith("stand") else self.votes(line), deaf)
                with self.assertRaises(Refused):
                    ring.campaign("red", len(leaders), node=1, seconds=0.1)
                self.assertEqual(len(nodes[0].stands()), 1)

    def test_behind_the_last_term_there_is_none(self) -> None:
        ring, nodes = self.votes_ring()
        self.votes.leaders[999_999_999] = (2, 5)
        for act in (lambda: ring.campaign("red", 999_999_999), self.lock(ring).acquire):
            with self.assertRaisesRegex(NoTerm, "red has no term above 999999999: use another name"):
                act()
        self.assertEqual([*nodes[0].stands(), *nodes[1].stands()], [])

    def test_a_term_that_is_too_far_is_not_stood_on_from(self) -> None:
        ring, nodes = self.ring(lambda line: "no 28 far 1000005" if line.startswith("stand") else "none", deaf)
        lock = self.lock(ring)
        lock.resign(above=999_999_998)
        for act in (lambda: ring.campaign("red", 999_999_998, node=1), lambda: ring.stand("red", 999_999_999, 5),
                    lambda: lock.acquire()):
            nodes[0].lines.clear()
            with self.assertRaises(TooFar) as caught:
                act()
            self.assertEqual((caught.exception.number, caught.exception.most, len(nodes[0].stands())), (28, 1_000_005, 1))
            self.assertTrue(str(caught.exception).startswith("no 28 far 1000005"))
        self.assertIn("cinoweta raise", str(caught.exception))
        self.assertIsNone(lock.sign)


if __name__ == "__main__":
    unittest.main()
