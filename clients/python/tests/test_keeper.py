"""The one session that all locks of a process across hosts have with a node, beside servers of lines."""
import socket
import threading
import time
from unittest import mock

from cinoweta import Cancelled, Lock, NoAnswer, NotHeld, Refused, Resigned, Ring
from cinoweta.keeper import KEEPERS
from cinoweta.presence import Presence

from .clock import PATIENCE, took, tried
from .lines import Groups, Node, Waiter, in_a_child
from .test_host import OTHER
from .test_ring import Beside, deaf

LOCKS = [f"g{number:02}" for number in range(40)]


def go_on() -> None:
    """Ends no wait."""


class KeeperTest(Beside):
    def setUp(self) -> None:
        for what, value in ("election.secrets.randbelow", mock.Mock(return_value=0)), ("keeper.EVERY", 0.02):
            patch = mock.patch(f"cinoweta.{what}", value)
            patch.start()
            self.addCleanup(patch.stop)
        groups = Groups()
        self.groups: Groups = groups
        self.ring_, self.nodes = self.ring(groups, groups, timeout=0.5, host=OTHER)
        # Nobody else leads, so that nobody is looked for.
        self.ring_.status = 1
        self.nodes[0].doors = threading.Semaphore(3)

    def until(self, is_so: object) -> None:
        until = time.monotonic() + PATIENCE
        while not is_so():
            self.assertLess(time.monotonic(), until)
            time.sleep(0.005)

    def lock(self, group: str, **words: object) -> Lock:
        lock = Lock(self.ring_, group, **{"wait": 2.0, "across_hosts": True, **words})
        self.addCleanup(lock.resign)
        return lock

    def hold(self, *groups: str, **words: object) -> list[Lock]:
        """Locks that are held, all by one session with node 1."""
        locks = [self.lock(group, **words) for group in groups]
        for lock in locks:
            lock.acquire()
        self.until(lambda: self.nodes[0].groups() == [*groups])
        return locks

    def kept(self) -> object:
        """The session with node 1."""
        return KEEPERS.places[OTHER, self.ring_.first].session

    def test_forty_locks_take_one_door(self) -> None:
        locks = self.hold(*LOCKS)
        self.assertEqual((len(self.nodes[0].present), [lock.is_lost() for lock in locks]), (1, [False] * 40))
        kept = self.kept()
        for lock in locks:
            lock.resign()
        # The last one closes it.
        self.until(lambda: not self.nodes[0].present)
        self.assertEqual((kept.is_usable(), KEEPERS.places), (False, {}))
        resigned = [line for line in self.nodes[0].lines if line.startswith("resign ")]
        self.assertEqual(resigned, [f"resign {group} 1" for group in LOCKS])
        # And the next first one opens it again.
        locks[0].acquire()
        self.until(lambda: self.nodes[0].groups() == ["g00"])

    def test_all_are_present_again_in_another_session(self) -> None:
        self.hold(*LOCKS, text="a worker")
        kept = self.kept()
        for is_away in (False, True):
            self.nodes[0].answer = deaf
            self.until(lambda: not self.nodes[0].present)
            time.sleep(0.1 * is_away)
            self.nodes[0].answer, before = self.groups, len(self.nodes[0].lines)
            self.until(lambda: self.nodes[0].groups() == LOCKS)
            lines = self.nodes[0].lines[before:]
            for group in LOCKS:
                self.assertIn(self.nodes[0].stands()[0].replace("g00", group), lines)
                self.assertIn(f"tell {group} a worker", lines)
            self.assertIsNot(self.kept(), kept)
            kept = self.kept()

    def test_a_session_that_ended_meanwhile_keeps_no_lock_waiting(self) -> None:
        said: list[str] = []
        with mock.patch("cinoweta.keeper.EVERY", 10.0):
            self.hold("red")
            for session in [*self.nodes[0].present]:
                session.connection.shutdown(socket.SHUT_RDWR)
            self.until(lambda: not self.nodes[0].present)
            self.lock("blue").acquire(tell=said.append)
            self.until(lambda: self.nodes[0].groups() == ["blue", "red"])
        self.assertEqual(said, [])

    def test_who_is_refused_again_keeps_no_other_one(self) -> None:
        self.hold(*LOCKS)
        self.nodes[0].answer = deaf
        self.until(lambda: not self.nodes[0].present)
        self.nodes[0].answer = lambda line: "no 8 memory" if line.startswith("stand g00 ") else self.groups(line)
        self.until(lambda: self.nodes[0].groups() == LOCKS[1:])
        self.nodes[0].answer = self.groups
        self.until(lambda: self.nodes[0].groups() == LOCKS)

    def test_who_resigns_leaves_the_others_present(self) -> None:
        locks = self.hold(*LOCKS)
        kept, left = self.kept(), LOCKS[:3] + LOCKS[4:]
        locks[3].resign()
        self.assertIn("resign g03 1", self.nodes[0].lines)
        self.until(lambda: self.nodes[0].groups() == left)
        before = len(self.nodes[0].lines)
        self.until(lambda: len(self.nodes[0].lines) > before + 3)
        self.assertEqual((self.nodes[0].groups(), self.kept()), (left, kept))
        self.assertEqual([lock.is_lost() for lock in locks], [group == "g03" for group in LOCKS])
        # Where the node does not take it, it is present no more all the same.
        self.nodes[0].answer = lambda line: "no 8 memory" if line.startswith("resign") else self.groups(line)
        locks[0].resign()
        self.until(lambda: self.nodes[0].groups() == left[1:])
        self.assertIsNot(self.kept(), kept)

    def test_threads_take_and_resign_side_by_side(self) -> None:
        faults: list[BaseException] = []
        self.nodes[0].doors = threading.Semaphore(6)

        def work(group: str) -> None:
            try:
                lock = self.lock(group)
                for _ in range(15):
                    with lock, mock.patch("cinoweta.locking.HANDED.get", return_value=(0, 0)):
                        if group not in self.nodes[0].groups() or lock.is_lost():
                            raise AssertionError(f"{group} is not present")
            except BaseException as fault:
                faults.append(fault)

        before = threading.active_count()
        threads = [threading.Thread(target=work, args=(f"g{number}",)) for number in range(4)]
        for thread in threads:
            thread.start()
        for thread in threads:
            thread.join(60.0)
        self.assertEqual((faults, KEEPERS.places), ([], {}))
        self.until(lambda: not self.nodes[0].present)
        self.until(lambda: threading.active_count() <= before)

    def test_a_process_that_is_forked_ends_nothing_of_its_parent(self) -> None:
        locks = self.hold(*LOCKS[:5])
        kept = self.kept()

        def act() -> None:
            locks[0].resign()
            try:
                locks[0].term
            except NotHeld:
                with Lock(self.ring_, "child", wait=2.0, across_hosts=True):
                    pass

        in_a_child(act)
        self.assertIn("resign child 1", self.nodes[0].lines)
        before = len(self.nodes[0].lines)
        self.until(lambda: len(self.nodes[0].lines) > before + 3)
        self.assertEqual((self.nodes[0].groups(), self.kept(), kept.is_usable()), (LOCKS[:5], kept, True))
        self.assertEqual([lock.is_lost() for lock in locks], [False] * 5)

    @tried
    def test_a_slow_node_keeps_no_lock_at_another_one(self) -> None:
        ends = threading.Event()
        self.addCleanup(ends.set)
        self.nodes[1].answer = lambda _line: ends.wait(20.0) and None
        shown, faults = Presence(self.ring_, "slow", 0), []

        def show() -> None:
            try:
                shown.show(1, 2, go_on)
            except NoAnswer as fault:
                faults.append(str(fault))

        thread = threading.Thread(target=show, daemon=True)
        thread.start()
        self.until(lambda: self.nodes[1].lines)
        before = time.monotonic()
        with self.lock("red"):
            self.assertEqual(self.nodes[0].groups(), ["red"])
        took(before, 1.0)
        thread.join(10.0)
        self.assertEqual(faults, [f"{OTHER}:{self.ring_.first + 1}: timed out"])

    def test_all_who_are_cut_off_give_up_in_time(self) -> None:
        told: list[Lock] = []
        locks = self.hold(*LOCKS[:5], give_up=1.0, on_lost=told.append)
        self.nodes[0].answer = self.nodes[1].answer = lambda _line: time.sleep(30.0)
        before = time.monotonic()
        while len(told) < 5:
            self.assertLess(time.monotonic() - before, 3.0, told)
            time.sleep(0.02)
        self.assertEqual({*told}, {*locks})

    @tried
    def test_who_waits_for_a_slow_node_leaves_at_once(self) -> None:
        first, = self.hold("red")
        ends, cancel = threading.Event(), threading.Event()
        self.addCleanup(ends.set)
        for end, kind in (cancel.set, Cancelled), (lambda: waits.resign(), Resigned):
            # A Stand of the campaign is answered, and the one of the session is not.
            group, count = kind.__name__.lower(), []

            def slow(line: str) -> str | None:
                if line.startswith(f"stand {group} "):
                    count.append(line)
                return self.groups(line) if len(count) < 2 or not ends.wait(20.0) else None

            self.nodes[0].answer, waits = slow, self.lock(group)
            waiter = Waiter(waits, cancel)
            self.until(lambda: len(count) == 2)
            before = time.monotonic()
            end()
            waiter.join(5.0)
            took(before, 1.0)
            self.assertEqual(waiter.faults, [kind])
            self.nodes[0].answer = self.groups
            ends.set()
            # The session that it waited for is opened anew for who is there.
            self.until(lambda: self.nodes[0].groups() == ["red"])
            ends.clear()
            cancel.clear()
        self.assertFalse(first.is_lost())

    def test_a_node_that_is_away_is_told_to_all_who_wait(self) -> None:
        for kind, answer in (NoAnswer, deaf), (Refused, lambda _line: "no 25 line"):
            self.nodes[0].answer, faults = answer, []

            def show(group: str) -> None:
                try:
                    Presence(self.ring_, group, 0).show(1, 1, go_on)
                except (NoAnswer, Refused) as fault:
                    faults.append(type(fault))

            threads = [threading.Thread(target=show, args=(group,), daemon=True) for group in LOCKS]
            for thread in threads:
                thread.start()
            for thread in threads:
                thread.join(5.0)
            self.assertTrue(all(issubclass(fault, kind) for fault in faults), faults)
            self.assertEqual((len(faults), KEEPERS.places), (40, {}))
