"""Who waits for a lock keeps a place in the line of its holder's beacon."""
import contextlib
import json
import os
import socket
import threading
import time
import unittest
from unittest import mock

from cinoweta import Lock, LockTaken, Resigned, Waiter, holder, waiters
from cinoweta.beacon import CLIENTS, RANK, SPREAD, Beacon, port_of
from cinoweta.waiting import HANDED, is_there

from .clock import PATIENCE, took, tried
from .lines import Talker, Votes
from .test_host import told
from .test_ring import Beside


class Kept:
    """A connection to a beacon, line by line."""

    def __init__(self, beacon: Beacon) -> None:
        self.bid = beacon.bid
        self.connection = socket.create_connection(("127.0.0.1", port_of(beacon.bid)), 5.0)
        self.file = self.connection.makefile("r", encoding="utf-8")

    def send(self, line: str) -> None:
        self.connection.sendall(f"{line}\n".encode())

    def wait(self, own: int, since: int = 5_000, text: str = "a worker") -> None:
        self.send(f"wait {self.bid} {own} {since} 77 {text}")

    def line(self) -> str:
        """The next line; none where the other side ended."""
        return self.file.readline().rstrip("\n")

    def close(self) -> None:
        self.file.close()
        self.connection.close()


class BeaconLineTest(unittest.TestCase):
    def setUp(self) -> None:
        self.beacon = Beacon(0, "the holder")
        self.addCleanup(self.beacon.close)

    def kept(self) -> Kept:
        kept = Kept(self.beacon)
        self.addCleanup(kept.close)
        return kept

    def told(self, line: str) -> list[str]:
        """All that is answered to a line until the connection ends."""
        kept = self.kept()
        kept.send(line)
        return kept.file.read().splitlines()

    def test_who_came_first_comes_next(self) -> None:
        first, second, third = self.kept(), self.kept(), self.kept()
        first.wait(5)
        self.assertEqual(first.line(), "place 1")
        second.wait(6, text="ä")
        self.assertEqual(second.line(), "place 2")
        # One that waited longer elsewhere, of the same rank.
        third.wait(7, since=4_999, text="")
        self.assertEqual([third.line(), first.line(), second.line()], ["place 1", "place 2", "place 3"])
        self.assertEqual(self.told(f"waiters {self.beacon.bid}"), ["waiters 3", "7 77 ", "5 77 a worker", "6 77 ä"])
        third.close()
        self.assertEqual([first.line(), second.line()], ["place 1", "place 2"])
        self.assertEqual(self.beacon.close(), 5)
        self.assertEqual([first.line(), second.line(), first.line(), second.line()], ["turn", "after 5", "", ""])
        self.assertEqual(self.beacon.close(), 0)

    def test_where_the_next_one_is_gone_too_the_others_are_told_their_places(self) -> None:
        kept = [self.kept() for _ in range(4)]
        for place, each in enumerate(kept, 1):
            each.wait(4 + place)
            self.assertEqual(each.line(), f"place {place}")
        gone = next(client for client in self.beacon.clients if client.own == 6)
        gone.connection = mock.Mock(wraps=gone.connection, **{"sendall.side_effect": BrokenPipeError})
        kept[0].close()
        self.assertEqual([kept[2].line(), kept[3].line()], ["place 1", "place 2"])
        kept[2].send(str(self.beacon.bid))
        self.assertEqual(kept[2].line(), str(self.beacon.bid))

    def test_a_greater_rank_goes_first(self) -> None:
        first, second = self.kept(), self.kept()
        first.wait(5, since=0)
        self.assertEqual(first.line(), "place 1")
        second.wait(RANK + 5)
        self.assertEqual([second.line(), first.line()], ["place 1", "place 2"])

    def test_who_waits_is_answered_and_is_kept_no_longer_than_it_asks(self) -> None:
        kept, silent = self.kept(), self.kept()
        with mock.patch("cinoweta.beacon.SILENT", 3.0):
            silent.wait(6)
            self.assertEqual(silent.line(), "place 1")
            kept.wait(5, since=6_000)
            self.assertEqual(kept.line(), "place 2")
            until, lines = time.monotonic() + 5.0, []
            while time.monotonic() < until:
                kept.send(str(self.beacon.bid))
                lines.append(kept.line())
                time.sleep(0.1)
        self.assertEqual((silent.line(), lines.count("place 1"), {*lines}), ("", 1, {"place 1", str(self.beacon.bid)}))

    def test_who_waits_anew_has_one_place(self) -> None:
        first, again = self.kept(), self.kept()
        first.wait(5)
        self.assertEqual(first.line(), "place 1")
        again.wait(5)
        self.assertEqual([again.line(), first.line()], ["place 1", ""])

    def test_lines_that_are_none(self) -> None:
        bid = self.beacon.bid
        for line in ("", "x", f"{bid} ", f"wait {bid}", f"wait {bid} 0 0 7 a", f"wait {bid} -5 0 7 a", f"wait {bid} ٣ 0 7 a",
                     f"wait {bid} 5 x 7 a", f"wait {bid} 5 {10 ** 15} 7 a", f"wait {bid} 1000000000 0 7 a", f"wait {bid + 1} 5 0 7 a", f"wait {bid} 5 0 7 \t",
                     f"wait {bid} 5 0 7 {'x' * 201}", f"holder {bid + 1}", f"waiters {bid + 1}", "x" * 301):
            self.assertEqual(self.told(line), [], line)
        self.assertEqual(self.told(f"waiters {bid}"), ["waiters 0"])
        self.assertEqual(self.told(f"holder {bid}"), [f"{bid} {os.getpid()} the holder"])
        # No line's end comes at all.
        kept = self.kept()
        kept.connection.sendall(b"x" * 4_000)
        self.assertEqual(kept.file.read(), "")

    def test_waiters_are_bounded(self) -> None:
        with mock.patch("cinoweta.beacon.WAITERS", 2):
            lines = []
            for own in range(5, 8):
                each = self.kept()
                each.wait(own)
                # What is asked at once may be heard in any order.
                lines.append(each.line())
            self.assertEqual(lines, ["place 1", "place 2", ""])

    @tried
    def test_clients_are_served_side_by_side(self) -> None:
        # Each of these asks nothing. One after the other they would be waited for two minutes.
        waiter = self.kept()
        waiter.wait(5)
        with mock.patch("cinoweta.beacon.LIMIT", 60.0):
            silent = [self.kept() for _ in range(CLIENTS + 50)]
            before = time.monotonic()
            self.assertTrue(is_there(self.beacon.bid, 1.0))
            took(before, 1.0)
            # The first ones were left, by a reset.
            with self.assertRaises(ConnectionResetError):
                silent[0].line()
        self.assertEqual(waiter.line(), "place 1")
        waiter.send(str(self.beacon.bid))
        self.assertEqual(waiter.line(), str(self.beacon.bid))

    def test_a_flood_takes_no_lock(self) -> None:
        over, count = threading.Event(), 0

        def flood() -> None:
            nonlocal count
            kept: list[socket.socket] = []
            while not over.is_set():
                try:
                    kept.append(socket.create_connection(("127.0.0.1", port_of(self.beacon.bid)), 5.0))
                    count += 1
                except OSError:
                    pass
                if len(kept) > 300:
                    kept.pop(0).close()
            for each in kept:
                each.close()

        thread = threading.Thread(target=flood)
        thread.start()
        until = time.monotonic() + 3.0
        while time.monotonic() < until:
            self.assertTrue(is_there(self.beacon.bid, 1.0), count)
        over.set()
        thread.join()
        self.assertGreater(count, 300)


class BeaconEndTest(unittest.TestCase):
    def test_a_thread_that_comes_to_wait_as_it_ends_ends_too(self) -> None:
        comes, rest, threads = threading.Event(), Beacon.rest, list[threading.Thread]()

        def slow(beacon: Beacon) -> float | None:
            told = rest(beacon)
            threads.append(threading.current_thread())
            comes.set()
            time.sleep(0.2)
            return told

        with mock.patch.object(Beacon, "rest", slow):
            beacon = Beacon(0, "")
            comes.wait(5.0)
            beacon.close()
            # What is opened now may have the number of what it closed, and is closed once it is.
            pairs = [socket.socketpair() for _ in range(4)]
            self.assertFalse(is_there(beacon.bid, 0.5))
            time.sleep(0.3)
            for one, other in pairs:
                one.close()
                other.settimeout(3.0)
                self.assertEqual(other.recv(1), b"")
                other.close()
            threads[0].join(5.0)
            self.assertEqual((threads[0].is_alive(), beacon.server.fileno()), (False, -1))


class LineTest(Beside):
    """Locks that wait in line, beside nodes that elect whoever stands."""

    def setUp(self) -> None:
        self.votes = Votes()
        self.ring_, _ = self.ring(self.votes, self.votes)
        self.held: list[Lock] = []
        self.addCleanup(lambda: [lock.resign() for lock in self.held])
        # On a busy machine an election may take longer than the grace.
        for what, value in (("election.secrets.randbelow", mock.Mock(return_value=0)), ("locking.GRACE", 1.0)):
            patch = mock.patch(f"cinoweta.{what}", value)
            patch.start()
            self.addCleanup(patch.stop)

    def lock(self, **words: object) -> Lock:
        self.held.append(Lock(self.ring_, "red", **words))
        return self.held[-1]

    def wait(self, lock: Lock, order: list[Lock]) -> threading.Thread:
        """Has a thread wait for it, and note that it came to hold it."""
        def run() -> None:
            with contextlib.suppress(Resigned):
                lock.acquire()
                order.append(lock)

        thread = threading.Thread(target=run, daemon=True)
        count = len(waiters(self.ring_, "red"))
        thread.start()
        self.until(lambda: len(waiters(self.ring_, "red")) == count + 1)
        return thread

    def until(self, is_so: object) -> None:
        until = time.monotonic() + PATIENCE
        while not is_so():
            self.assertLess(time.monotonic(), until)
            time.sleep(0.005)

    def test_who_waits_comes_in_order(self) -> None:
        first, order = self.lock(), []
        first.acquire()
        later = [self.lock(text=f"worker {number}") for number in range(4)]
        threads = [self.wait(lock, order) for lock in later]
        self.assertEqual(waiters(self.ring_, "red"), [Waiter(os.getpid(), f"worker {number}") for number in range(4)])
        words = ["--ring", f"{self.ring_.first}-{self.ring_.ports[-1]}", "waiters", "red"]
        text = "".join(f"{number + 1} process {os.getpid()} worker {number}\n" for number in range(4))
        self.assertEqual(told(*words), (0, text, ""))
        self.assertEqual(json.loads(told("--json", *words)[1].splitlines()[3])["place"], 4)
        # Who resigned comes behind them.
        first.resign()
        threads.append(threading.Thread(target=lambda: (first.acquire(), order.append(first)), daemon=True))
        threads[-1].start()
        for number, lock in enumerate([*later, first]):
            self.until(lambda: len(order) == number + 1)
            self.assertIs(order[-1], lock)
            time.sleep(0.1)
            lock.resign()
        self.assertEqual([lock.term for lock in order], [2, 3, 4, 5, 6])
        self.assertEqual(told(*words)[:2], (1, "none\n"))

    def test_who_waits_comes_in_order_behind_a_kill(self) -> None:
        first, order = self.lock(), []
        first.acquire()
        later = [self.lock() for _ in range(3)]
        for lock in later:
            self.wait(lock, order)
        # The connections end, and nobody is told that it is his turn.
        with mock.patch.object(type(first.sign), "line", return_value=[]):
            first.resign()
        self.until(lambda: order)
        self.assertIs(order[0], later[0])
        self.until(lambda: len(waiters(self.ring_, "red")) == 2)

    def test_a_rank_goes_first(self) -> None:
        first, order = self.lock(), []
        first.acquire()
        low, high = self.lock(), self.lock(rank=3)
        self.wait(low, order)
        self.wait(high, order)
        first.resign()
        self.until(lambda: order)
        self.assertIs(order[0], high)

    @tried
    def test_the_next_one_is_told_at_once(self) -> None:
        first, second, order = self.lock(), self.lock(), []
        first.acquire()
        for holder, waiter in ((first, second), (second, first)):
            self.wait(waiter, order)
            # Who only looks once a second does so again in 0.8 seconds.
            time.sleep(1.2)
            before = time.monotonic()
            holder.resign()
            self.until(lambda: order)
            took(before, 0.5)
            self.assertIs(order.pop(), waiter)

    @tried
    def test_who_resigned_leaves_the_term_to_who_comes_next_for_a_moment_alone(self) -> None:
        # Who comes next answers, and does not stand.
        following = Beacon(0, "")
        self.addCleanup(following.close)
        first = self.lock()
        first.acquire()
        HANDED.put(first.key, following.bid, first.led)
        first.resign()
        for again, least in ((first, 0.95), (first, 0.0)):
            before = time.monotonic()
            HANDED.put(first.key, following.bid if least else 0, first.led)
            again.acquire()
            took(before, least + 0.8, least)
            again.resign()
        # Nor for one that is not there any more.
        following.close()
        HANDED.put(first.key, following.bid, first.led)
        before = time.monotonic()
        with self.lock():
            took(before, 0.9)

    def liar(self, part: str, pause: float) -> int:
        """The bid of a beacon of which each client is told this again and again."""
        talker = Talker(b"", pause)
        self.addCleanup(talker.end)
        bid = talker.port * SPREAD + 7
        talker.part = part.format(bid).encode()
        return bid

    @tried
    def test_a_beacon_that_lies_keeps_nobody_waiting_for_ever(self) -> None:
        for part, pause in (("place 1\n" * 1_000, 0.0), ("place 1\nafter {}\n", 0.01), ("x" * 4_096, 0.0)):
            bid = self.liar(part, pause)
            # As the holder, and as who is said to come next.
            term = max(self.votes.leaders, default=0) + 1
            self.votes.leaders[term] = (1, bid)
            lock = self.lock(wait=1.0, patience=0.5)
            for first in (0, bid):
                HANDED.put(lock.key, first, term)
                before = time.monotonic()
                with contextlib.suppress(LockTaken), lock:
                    # Whoever was told nonsense leads in a term of its own, or not at all.
                    self.assertGreater(lock.term, term)
                took(before, 6.0, what=part[:20])
            before = time.monotonic()
            self.assertEqual((waiters(self.ring_, "red", 0.5), is_there(bid, 0.5), holder(self.ring_, "red", 0.5)), ([], False, None))
            took(before, 6.0, what=part[:20])

    def test_a_beacon_without_a_line_is_asked_once_a_second(self) -> None:
        first, second, order = self.lock(), self.lock(), []
        first.acquire()
        with mock.patch("cinoweta.beacon.WAITERS", 0):
            thread = threading.Thread(target=lambda: (second.acquire(), order.append(second)), daemon=True)
            thread.start()
            time.sleep(0.5)
            self.assertEqual((order, waiters(self.ring_, "red")), ([], []))
            first.resign()
            thread.join(5.0)
        self.assertEqual((order, second.term), ([second], 2))


if __name__ == "__main__":
    unittest.main()
