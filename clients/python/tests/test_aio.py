"""AsyncRing and AsyncLock beside servers of lines that answer as they are told."""
import asyncio
import json
import os
import threading
import time
import unittest
from unittest import mock

from cinoweta import (AlreadyStands, Election, Holder, Leader, Led, Lock, LockTaken, NoAnswer, NoLeader, Resigned, Retired, Ring,
                      Waiter, WrongRing)
from cinoweta.aio import AsyncLock, AsyncRing, holder, waiters
from cinoweta.waiting import is_there

from .clock import PATIENCE
from .lines import Groups, Node, Votes, first, fork_idle, serve
from .test_presence import Told
from .test_ring import deaf
from .test_status import BesideStatus


class AioTest(unittest.IsolatedAsyncioTestCase, BesideStatus):
    def setUp(self) -> None:
        self.votes = Votes()
        # On a busy machine an election may take longer than the grace.
        for what, value in (("election.secrets.randbelow", mock.Mock(return_value=0)), ("locking.GRACE", 10.0)):
            patch = mock.patch(f"cinoweta.{what}", value)
            patch.start()
            self.addCleanup(patch.stop)

    async def asyncSetUp(self) -> None:
        # Its looks take longer than what they look at.
        asyncio.get_running_loop().set_debug(False)

    def ring(self, *answers: object, timeout: float = 3.0, status: int | None = None) -> tuple[AsyncRing, list[Node]]:
        nodes = serve(*(answers or (self.votes, self.votes)))
        for node in nodes:
            self.addCleanup(node.end)
        ring = AsyncRing(nodes[0].server_address[1], nodes[-1].server_address[1], timeout=timeout, status=status)
        self.addCleanup(ring.close)
        return ring, nodes

    async def until(self, is_so: object) -> None:
        until = time.monotonic() + PATIENCE
        while not is_so():
            self.assertLess(time.monotonic(), until)
            await asyncio.sleep(0.005)

    async def test_questions(self) -> None:
        ring, nodes = self.ring(deaf, self.votes)
        self.assertIsNone(await ring.latest("red"))
        self.assertEqual([len(node.lines) for node in nodes], [1, 1])
        ring, _ = self.ring()
        self.assertEqual(await ring.campaign("red", node=1, seconds=0.1), Election(1, Leader(1, 0), True))
        with self.assertRaises(AlreadyStands):
            await ring.stand("red", 1, 0)
        self.assertEqual((await ring.who("red", 1), await ring.latest("red")), (Leader(1, 0), Led(1, Leader(1, 0))))
        self.assertEqual(await ring.retire("red", 1, 1), 1)
        self.assertEqual((await ring.campaign("red", 1, node=1)).term, 2)
        await ring.retire("red", 2, 1)
        with self.assertRaises(Retired):
            await ring.who("red", 1)
        with self.assertRaisesRegex(ValueError, "node 3: the ring has the nodes 1 to 2"):
            await ring.latest("red", 3)
        watch = ring.watch("red")
        self.assertEqual((await watch.__anext__()).term, 2)

    async def test_faults(self) -> None:
        ring, nodes = self.ring(deaf, deaf, timeout=0.2)
        with self.assertRaises(NoAnswer):
            await ring.latest("red")
        with self.assertRaises(NoAnswer):
            await ring.watch("red", wait=0.0).__anext__()
        for answer, kind in ((lambda _line: "what", WrongRing), (lambda _line: "none\nnone", NoAnswer),
                             (lambda _line: "x" * 300, NoAnswer)):
            nodes[0].answer = nodes[1].answer = answer
            with self.assertRaises(kind):
                await ring.latest("red")
        # A Stand without an answer may be there.
        ring, _ = self.ring(first(None, "no 3 already 10"), deaf)
        await ring.stand("red", 5, 10)

    async def test_a_question_that_is_cancelled_ends_its_session(self) -> None:
        ring, _ = self.ring(lambda line: time.sleep(0.3) or "term 5 leader 1 10" if line == "latest red" else "none", deaf)
        task = asyncio.create_task(ring.latest("red"))
        await asyncio.sleep(0.1)
        task.cancel()
        with self.assertRaises(asyncio.CancelledError):
            await task
        await asyncio.sleep(0.4)
        self.assertIsNone(await ring.latest("blue"))

    async def test_a_question_of_another_task_keeps_its_session(self) -> None:
        ring, nodes = self.ring()
        nodes[0].answer = lambda line: time.sleep(0.5) or self.votes(line)
        task = asyncio.create_task(ring.latest("red", 1))
        await self.until(lambda: nodes[0].lines)
        ring.close()
        self.assertIsNone(await task)
        self.assertEqual(nodes[0].lines, ["latest red"])
        await self.until(lambda: ring.session is None)

    async def test_a_child_keeps_no_session_of_its_parent_open(self) -> None:
        ring, nodes = self.ring()
        await ring.stand("red", 1, 5)
        fork_idle(self)
        self.assertEqual(len(nodes[0].present), 1)
        ring.close()
        await self.until(lambda: not nodes[0].present)

    async def test_a_session_is_ended_once_nothing_is_asked_over_it(self) -> None:
        ring, _ = self.ring()
        await ring.latest("red")
        kept, until = ring.session, time.monotonic() + 1.5
        while time.monotonic() < until:
            await ring.latest("red")
        self.assertIs(ring.session, kept)
        await self.until(lambda: ring.session is None)
        self.assertIsNone(await ring.latest("red"))

    async def test_it_is_held_within_with(self) -> None:
        ring, _ = self.ring()
        async with AsyncLock(ring, "red", text="a worker") as held:
            bid = self.votes.stood[1]
            self.assertEqual((held.term, await held.is_lost()), (1, False))
            self.assertEqual(await holder(ring, "red"), Holder(1, Leader(1, bid), os.getpid(), "a worker"))
            with self.assertRaises(ValueError):
                await held.acquire()
            for wait in (0.0, 0.3):
                with self.assertRaises(LockTaken) as caught:
                    await AsyncLock(ring, "red", wait=wait).acquire()
            self.assertEqual(caught.exception.holder.text, "a worker")
        self.assertEqual((await held.is_lost(), await holder(ring, "red")), (True, None))

    async def test_it_is_the_same_lock_as_that_of_threads(self) -> None:
        ring, _ = self.ring()
        near = Ring(ring.first, ring.ports[-1])
        order: list[str] = []

        async def take(name: str) -> None:
            async with AsyncLock(ring, "red", text=name):
                order.append(name)
                await asyncio.sleep(0.05)

        held = Lock(near, "red")
        await asyncio.to_thread(held.acquire)
        names = [f"task {number}" for number in range(8)]
        threads, tasks = threading.active_count(), []
        for number, name in enumerate(names, 1):
            tasks.append(asyncio.create_task(take(name)))
            while len(await waiters(ring, "red")) < number:
                await asyncio.sleep(0.005)
        self.assertEqual((await waiters(ring, "red"))[0], Waiter(os.getpid(), "task 0"))
        # Each has a beacon's thread alone.
        self.assertLessEqual(threading.active_count(), threads + 9)
        held.resign()
        await asyncio.gather(*tasks)
        self.assertEqual((order, max(self.votes.stood)), (names, 9))

    async def test_who_is_cancelled_holds_nothing(self) -> None:
        ring, nodes = self.ring()
        async with AsyncLock(ring, "red"):
            waits = AsyncLock(ring, "red")
            task = asyncio.create_task(waits.acquire())
            while not await waiters(ring, "red"):
                await asyncio.sleep(0.005)
            bid = waits.sign.bid
            task.cancel()
            with self.assertRaises(asyncio.CancelledError):
                await task
            self.assertIsNone(waits.sign)
            self.assertFalse(await asyncio.to_thread(is_there, bid, 1.0))
            while await waiters(ring, "red"):
                await asyncio.sleep(0.005)
        # And where it is so while the ring is asked.
        nodes[0].answer = nodes[1].answer = lambda line: time.sleep(1.0) or self.votes(line)
        for delay in (0.1, 1.1, 2.1):
            task = asyncio.create_task(waits.acquire())
            await asyncio.sleep(delay)
            task.cancel()
            with self.assertRaises(asyncio.CancelledError):
                await task
            self.assertEqual((waits.sign, await waits.is_lost()), (None, True))
        nodes[0].answer = nodes[1].answer = self.votes
        await asyncio.wait_for(waits.acquire(), 10.0)
        self.assertFalse(await waits.is_lost())
        waits.resign()

    async def test_who_is_resigned_while_it_waits_does_not_hold_it(self) -> None:
        ring, _ = self.ring()
        async with AsyncLock(ring, "red"):
            waits = AsyncLock(ring, "red")
            task = asyncio.create_task(waits.acquire())
            await asyncio.sleep(0.3)
            waits.resign()
            with self.assertRaises(Resigned):
                await asyncio.wait_for(task, 2.0)

    async def test_it_is_told_once_it_is_lost_or_given_up(self) -> None:
        ring, nodes = self.ring(timeout=0.2)
        with mock.patch("cinoweta.locking.EVERY", 0.05), mock.patch("cinoweta.looks.EVERY", 0.05):
            for lose in (lambda: self.votes.leaders.update({9: (2, 5)}),
                         lambda: [setattr(node, "answer", deaf) for node in nodes]):
                told: list[AsyncLock] = []
                lock = AsyncLock(ring, "red", give_up=0.5, on_lost=told.append)
                await lock.acquire()
                await asyncio.sleep(0.7)
                self.assertEqual((told, await lock.is_lost()), ([], False))
                lose()
                await self.until(lambda: told)
                self.assertEqual((told, await lock.is_lost()), ([lock], True))
            await self.until(lambda: not ring.looks.is_going_on)

    async def test_across_hosts(self) -> None:
        ring, nodes = self.ring()
        ring.status = BesideStatus.serve(self, Told(self.votes, nodes[0]))
        with mock.patch("cinoweta.keeper.EVERY", 0.02), mock.patch("cinoweta.locking.ABSENT", 2.0):
            async with AsyncLock(ring, "red", across_hosts=True) as held:
                self.assertEqual((held.term, len(nodes[0].present)), (1, 1))
                self.assertEqual((await holder(ring, "red", across_hosts=True)).term, 1)
                with self.assertRaises(LockTaken):
                    await AsyncLock(ring, "red", wait=0.0, across_hosts=True).acquire()
            await self.until(lambda: not nodes[0].present)
            self.assertIsNone(await holder(ring, "red", across_hosts=True))

    async def test_locks_across_hosts_share_a_session(self) -> None:
        ring, nodes = self.ring()
        ring.status, nodes[0].answer, nodes[0].doors = 1, Groups(), threading.Semaphore(3)
        locks = [AsyncLock(ring, f"g{number}", wait=2.0, across_hosts=True) for number in range(9)]
        with mock.patch("cinoweta.keeper.EVERY", 0.02):
            for lock in locks:
                await lock.acquire()
            await self.until(lambda: nodes[0].groups() == [lock.group for lock in locks] and len(nodes[0].present) == 1)
            for lock in locks[1:]:
                lock.resign()
            await self.until(lambda: nodes[0].groups() == ["g0"])
            locks[0].resign()
            await self.until(lambda: not nodes[0].present)

    async def test_a_wait_at_the_status_port_ends_with_its_lock(self) -> None:
        ring, nodes = self.ring()
        told = Told(self.votes, nodes[0])
        ring.status = BesideStatus.serve(self, told)
        with mock.patch("cinoweta.keeper.EVERY", 0.02), mock.patch.object(Told, "wait", lambda *_words: time.sleep(8.0) or (204, "")):
            async with AsyncLock(ring, "red", across_hosts=True):
                waits = AsyncLock(ring, "red", across_hosts=True)
                task = asyncio.create_task(waits.acquire())
                await self.until(lambda: any("held=" in line for line in told.lines))
                waits.resign()
                with self.assertRaises(Resigned):
                    await asyncio.wait_for(task, 5.0)

    async def test_what_the_status_port_tells(self) -> None:
        leader = {"bid": 5, "group": "red", "node": 2, "term": 7}
        port = BesideStatus.serve(self, {"/leaders/red?above=6&wait=30": (200, json.dumps({"leader": leader, "present": True})),
                                         "/health": (503, "node 2 full\n")})
        ring, _ = self.ring(status=port)
        self.assertEqual(await ring.watch("red", 6).__anext__(), Led(7, Leader(2, 5)))
        self.votes.elects = False
        with self.assertRaisesRegex(NoLeader, ": node 2 full") as caught:
            await ring.campaign("red", 8, terms=1, seconds=0.0)
        self.assertEqual(caught.exception.faults, ["node 2 full"])
        with self.assertRaises(NoAnswer):
            await AsyncRing(7101, 7103, status=1).fetch("/health", 1.0)


if __name__ == "__main__":
    unittest.main()
