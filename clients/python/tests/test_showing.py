"""How locks of one host are shown, beside servers of lines and of the status port."""
import asyncio
import json
import os
import threading
import time
from unittest import mock

from cinoweta import Holder, Leader, Lock, NotListed, Ring, WrongRing, holder, waiters
from cinoweta.aio import AsyncLock, AsyncRing
from cinoweta.beacon import SPREAD
from cinoweta.session import Session
from cinoweta.showing import SHOWERS

from .clock import PATIENCE, took, tried
from .lines import Groups, Node, in_a_child
from .test_host import told
from .test_ring import Beside, deaf
from .test_status import BesideStatus

DOORS = 4
# An address of this host too, but not of it alone.
ANY = "0.0.0.0"


class Doors(dict[str, tuple[int, str]]):
    """What the status port tells of doors, of which so many serve others; and of `red`: who leads is present where a
    session of node 1 stood."""

    def __init__(self, groups: Groups, nodes: list[Node]) -> None:
        super().__init__()
        self.groups, self.nodes, self.others, self.text, self.asked = groups, nodes, 0, "", 0

    def get(self, path: str, none: tuple[int, str] | None = None) -> tuple[int, str] | None:
        if path == "/status":
            self.asked += 1
            rows = [{"node": node, "sessions": {"doors": DOORS, "busy": self.others + len(each.present)}}
                    for node, each in enumerate(self.nodes, 1)]
            return 200, json.dumps({"nodes": rows})
        votes = self.groups.votes.get("red")
        if path != "/leaders/red?node=1" or votes is None or not votes.leaders:
            return none
        term = max(votes.leaders)
        node, bid = votes.leaders[term]
        said = [line for line in self.nodes[0].lines if line.startswith("tell red ")]
        return 200, json.dumps({"leader": {"bid": bid, "group": "red", "node": node, "term": term},
                                "present": "red" in self.nodes[0].groups(),
                                "resigned": f"resign red {term}" in self.nodes[0].lines,
                                "text": said[-1][9:] if said else ""})


class ShowingTest(Beside, BesideStatus):
    def setUp(self) -> None:
        for what, value in (("election.secrets.randbelow", mock.Mock(return_value=0)), ("showing.EVERY", 0.05),
                            ("showing.LOOKS", 0.05), ("showing.REST", 0.02), ("showing.LONGEST", 0.05)):
            patch = mock.patch(f"cinoweta.{what}", value)
            patch.start()
            self.addCleanup(patch.stop)
        self.groups = Groups()
        self.ring_, self.nodes = self.ring(self.groups, self.groups, timeout=0.5)
        self.doors = Doors(self.groups, self.nodes)
        self.ring_.status = self.serve(self.doors)
        # A session that elected, or asked last, may go on for a moment.
        self.addCleanup(lambda: self.until(lambda: not SHOWERS.places))

    def until(self, is_so: object) -> None:
        until = time.monotonic() + PATIENCE
        while not is_so():
            self.assertLess(time.monotonic(), until)
            time.sleep(0.005)

    def lock(self, group: str = "red", **words: object) -> Lock:
        lock = Lock(self.ring_, group, **{"wait": 2.0, **words})
        self.addCleanup(lock.resign)
        return lock

    def is_shown(self, *groups: str) -> bool:
        return self.nodes[0].groups() == [*groups]

    def shower(self) -> object:
        return next(iter(SHOWERS.places.values()))

    def test_a_lock_is_present_and_tells_its_text_while_it_is_held(self) -> None:
        lock = self.lock(text="a worker, b")
        lock.acquire()
        self.until(lambda: "tell red a worker, b" in self.nodes[0].lines and self.is_shown("red"))
        bid = self.groups.votes["red"].stood[1]
        # That which elected it, and that which shows it.
        self.assertEqual(self.nodes[0].stands(), [f"stand red 1 {bid}"] * 2)
        # Its session is not silent, and its lines that tell do not count.
        self.until(lambda: self.nodes[0].lines.count("tell red a worker, b") > 3)
        session = self.shower().session
        self.assertEqual((lock.is_lost(), session.is_usable()), (False, True))
        lock.resign()
        self.until(lambda: self.is_shown() and not session.is_usable())
        self.assertIn("resign red 1", self.nodes[0].lines)

    def test_what_is_given_back_soon_is_never_shown(self) -> None:
        threads = threading.active_count()
        with mock.patch("cinoweta.showing.EVERY", 1.0):
            for term in range(1, 6):
                with self.lock(text="a worker") as held:
                    self.assertEqual(held.term, term)
            # The thread comes by while the next one is held, though not for a second.
            time.sleep(0.6)
            with self.lock(text="a worker"):
                time.sleep(0.7)
            self.until(lambda: not SHOWERS.places)
        self.assertEqual((len(self.nodes[0].stands()), self.doors.asked), (6, 0))
        self.assertFalse(any(line.startswith(("tell ", "resign ")) for line in self.nodes[0].lines))
        self.until(lambda: threading.active_count() <= threads)

    def test_without_the_status_port_nobody_is_told(self) -> None:
        self.ring_.status = None
        with self.lock(text="a worker"):
            time.sleep(0.3)
            self.assertEqual((len(self.nodes[0].stands()), SHOWERS.places), (1, {}))

    def test_all_locks_at_a_node_take_one_door(self) -> None:
        groups = [f"g{number:02}" for number in range(60)]
        locks = [self.lock(group, text=group) for group in groups]
        for lock in locks:
            lock.acquire()
        self.until(lambda: self.is_shown(*groups))
        self.assertEqual(len(self.nodes[0].present), 1)
        locks[3].resign()
        self.until(lambda: self.is_shown(*groups[:3], *groups[4:]))
        self.assertEqual(len(self.nodes[0].present), 1)
        locks[3].acquire()
        self.until(lambda: self.is_shown(*groups))

    def test_where_no_door_is_left_for_others_it_is_held_unshown(self) -> None:
        self.doors.others = DOORS - 1
        lock = self.lock()
        lock.acquire()
        self.until(lambda: self.doors.asked > 3)
        self.assertEqual((lock.is_lost(), len(self.nodes[0].stands())), (False, 1))
        # Later one is.
        self.doors.others = DOORS - 2
        self.until(lambda: self.is_shown("red"))
        # It is given back where others come, though not for a moment, and looked for again.
        for _ in range(2):
            self.doors.others, asked = DOORS - 1, self.doors.asked
            self.until(lambda: not self.is_shown("red"))
            self.assertGreater(self.doors.asked, asked + 1)
            self.doors.others = 0
            self.until(lambda: self.is_shown("red"))
        self.assertFalse(lock.is_lost())

    def test_a_status_port_that_tells_no_doors_leaves_it_unshown(self) -> None:
        for nodes in None, [], [{"node": 1}, {"node": 2}]:
            answer = 200, json.dumps({"nodes": nodes})
            self.ring_.status = self.serve({"/status": answer})
            with self.lock() as held:
                before = len(self.nodes[0].stands())
                time.sleep(0.2)
                self.assertEqual((held.is_lost(), len(self.nodes[0].stands())), (False, before), answer)

    def test_it_is_shown_again_behind_a_start(self) -> None:
        with self.lock(text="a worker"):
            for refused in (None, "no 8 memory", "no 9 failed"):
                self.until(lambda: self.is_shown("red"))
                self.nodes[0].answer = lambda line: refused if line.startswith(("stand", "tell")) else self.groups(line)
                for session in [*self.nodes[0].present]:
                    session.connection.shutdown(2)
                self.until(lambda: not self.is_shown("red"))
                time.sleep(0.2)
                self.assertFalse(self.is_shown("red"))
                self.nodes[0].answer = self.groups
            self.until(lambda: self.is_shown("red"))

    def test_whose_term_is_over_is_asked_for_no_more(self) -> None:
        for number, fault in enumerate(("no 4 late", "no 5 stale 2", "no 23 retired 2", "no 3 already 5"), 1):
            # The first Stand elects it.
            lines = self.nodes[0].lines
            self.nodes[0].answer = lambda line: (
                fault if line.startswith("stand ") and lines.count(line) > 1 else self.groups(line))
            with self.lock():
                self.until(lambda: len(self.nodes[0].stands()) == 2 * number)
                time.sleep(0.3)
                self.assertEqual((len(self.nodes[0].stands()), self.shower().session), (2 * number, None), fault)
        self.nodes[0].answer = self.groups
        with self.lock(text="a worker"):
            self.until(lambda: self.is_shown("red"))
            self.nodes[0].answer = lambda line: "none" if line.startswith("tell ") else self.groups(line)
            self.until(lambda: not self.is_shown("red"))

    @tried
    def test_neither_a_take_nor_a_resign_waits_for_it(self) -> None:
        away = threading.Event()
        self.addCleanup(away.set)

        def answer(line: str) -> str | None:
            """Once it is away, only what the showing asks stays unanswered."""
            if line.startswith(("tell ", "resign ")):
                away.wait(9.0)
            return self.groups(line)

        self.nodes[0].answer = answer
        with mock.patch("cinoweta.showing.SECONDS", 9.0):
            for _ in range(3):
                before = time.monotonic()
                lock = self.lock(text="a worker")
                lock.acquire()
                took(before, 2.0)
                # For whose answer it waits from then on.
                self.until(lambda: "tell red a worker" in self.nodes[0].lines)
                time.sleep(0.1)
                before = time.monotonic()
                lock.resign()
                took(before, 0.5)
        away.set()

    def test_a_child_shows_nothing_of_its_parent(self) -> None:
        lock = self.lock()
        lock.acquire()
        self.until(lambda: self.is_shown("red"))

        def child() -> None:
            """Ends nothing of its parent's, and shows what it holds itself."""
            lock.resign()
            with self.lock("blue"):
                time.sleep(1.0)

        in_a_child(child)
        # The end of the child's session may not have come to the node yet.
        self.until(lambda: self.is_shown("red"))
        stood = [line.split()[1] for line in self.nodes[0].stands()]
        self.assertEqual(sorted(stood), ["blue", "blue", "red", "red"])
        self.assertNotIn("resign red 1", self.nodes[0].lines)

    def test_it_is_held_where_no_thread_is_had(self) -> None:
        start = threading.Thread.start

        def refuse(thread: threading.Thread) -> None:
            if "go_on" in repr(getattr(thread, "_target", "")):
                raise RuntimeError("can't start new thread")
            start(thread)

        with mock.patch.object(threading.Thread, "start", refuse), self.lock() as held:
            time.sleep(0.2)
            self.assertEqual((held.is_lost(), len(self.nodes[0].stands())), (False, 1))

    def test_a_lock_in_an_event_loop_is_shown(self) -> None:
        async def hold() -> None:
            ring = AsyncRing(self.ring_.first, self.ring_.ports[-1], timeout=0.5, status=self.ring_.status)
            async with AsyncLock(ring, "red", text="a task"):
                await asyncio.to_thread(self.until, lambda: "tell red a task" in self.nodes[0].lines)
                self.assertTrue(self.is_shown("red"))
            await asyncio.to_thread(self.until, self.is_shown)
            ring.close()

        asyncio.run(hold())

    def test_a_holder_that_is_shown_is_of_its_kind_all_the_same(self) -> None:
        with self.lock(text="a worker"):
            self.until(lambda: self.is_shown("red"))
            bid = self.groups.votes["red"].stood[1]
            self.assertEqual(holder(self.ring_, "red"), Holder(1, Leader(1, bid), os.getpid(), "a worker"))
            said = "red: held on one host, and this client is told to hold it across hosts"
            for refused in (lambda: holder(self.ring_, "red", across_hosts=True), self.lock(across_hosts=True).acquire):
                with self.assertRaisesRegex(WrongRing, said):
                    refused()
        self.until(self.is_shown)

    def test_a_holder_across_hosts_is_none_of_one_host(self) -> None:
        near = Ring(self.ring_.first, self.ring_.ports[-1])
        self.assertIsNone(holder(self.ring_, "red"))
        with self.lock(across_hosts=True, text="a worker"):
            # Without the status port nobody knows whether it is there.
            for ring in self.ring_, near:
                with self.assertRaisesRegex(WrongRing, "red: held across hosts, and this client is not told to"):
                    holder(ring, "red")
            words = ["--ring", f"{near.first}-{near.ports[-1]}", "holder", "red"]
            self.assertEqual(told(*words)[0], 2)
        with mock.patch("cinoweta.locking.ABSENT", 0.1):
            self.assertIsNone(holder(self.ring_, "red"))

    def test_waiters_that_can_not_be_listed(self) -> None:
        self.assertEqual(waiters(self.ring_, "red"), [])
        words = ["--ring", f"{self.ring_.first}-{self.ring_.ports[-1]}", "waiters", "red"]
        self.assertEqual(told(*words), (1, "none\n", ""))
        with self.lock(across_hosts=True):
            said = "red: held across hosts, where nobody lists who waits"
            with self.assertRaisesRegex(NotListed, said):
                waiters(self.ring_, "red")
            self.assertEqual(told(*words), (8, "", f"cinoweta: {said}\n"))
        far, _ = self.ring(self.groups, self.groups, timeout=0.5, host=ANY)
        for leads, said in (SPREAD + 5, "held across hosts"), (50_000_000, f"is listed on {ANY} itself alone"):
            self.groups.votes["red"].leaders[9] = (1, leads)
            with self.assertRaisesRegex(NotListed, said):
                waiters(far, "red")
            words = ["--ring", f"{ANY}:{far.first}-{far.ports[-1]}", "waiters", "red"]
            self.assertEqual(told(*words)[0], 8)

    def test_from_another_host_it_is_told_of_as_it_is_shown(self) -> None:
        far, nodes = self.ring(self.groups, self.groups, timeout=0.5, host=ANY)
        far.status = self.serve(Doors(self.groups, nodes), ANY)
        far.stand("red", 1, 50_000_000, 1)
        far.close()
        self.until(lambda: not nodes[0].present)
        # Nobody sees from there whether it is held, but where it is shown.
        with mock.patch("cinoweta.locking.ABSENT", 0.1), self.assertRaisesRegex(WrongRing, "held on one host"):
            holder(far, "red")
        session = Session(ANY, far.first, 1.0)
        self.addCleanup(session.close)
        session.ask_all(["stand red 1 50000000", "tell red a worker"], 1.0)
        self.assertEqual(holder(far, "red"), Holder(1, Leader(1, 50_000_000), None, "a worker"))
