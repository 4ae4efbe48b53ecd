"""Locks across hosts, beside servers of lines and of the status port that answer as they are told."""
import errno
import json
import socket
import threading
import time
from unittest import mock

from cinoweta import Cancelled, Holder, Leader, Led, Lock, LockTaken, NoAnswer, Refused, Resigned, Ring, WrongRing, holder, status
from cinoweta import presence
from cinoweta.beacon import SPREAD, port_of
from cinoweta.presence import Presence, gives_up_after
from cinoweta.status import Sight
from cinoweta.steps import at_once

from .clock import PATIENCE, took, tried
from .lines import Node, Votes, Waiter, in_a_child
from .test_host import OTHER, told
from .test_ring import Beside, deaf
from .test_status import BesideStatus


def is_there(ring: Ring, group: str, known: Led, seconds: float) -> bool:
    return at_once(presence.is_there(ring, group, known, seconds))


class Told(dict[str, tuple[int, str]]):
    """What the status port tells of `red`: the latest leader that the votes know, present where a session of node 1 is
    open in which something stood."""

    def __init__(self, votes: Votes, node: Node) -> None:
        super().__init__()
        self.votes, self.node, self.lines = votes, node, []
        # The term that was resigned, and what is told; an earlier ringd tells neither.
        self.resigned, self.text = 0, ""

    def get(self, path: str, none: tuple[int, str] | None = None) -> tuple[int, str] | None:
        self.lines.append(path)
        if path.startswith("/leaders/red?node=1&held="):
            return self.wait(path, int(path.split("=")[2].split("&")[0]), none)
        return self.told() if path == "/leaders/red?node=1" and self.votes.leaders else none

    def wait(self, path: str, held: int, none: tuple[int, str] | None) -> tuple[int, str] | None:
        """The long poll, where any client tells that it resigns or a text; else it is not known."""
        until = time.monotonic() + int(path.rsplit("=", 1)[1])
        while self.is_present() and max(self.votes.leaders) == held:
            if not any(line.startswith("resign ") for line in self.node.lines) and self.node.answer in (self.votes, None):
                return 400, ""
            if time.monotonic() > until:
                return 204, ""
            time.sleep(0.01)
        return self.told()

    def is_present(self) -> bool:
        return bool(self.node.present) and self.resigned != max(self.votes.leaders)

    def told(self) -> tuple[int, str]:
        term = max(self.votes.leaders)
        node, bid = self.votes.leaders[term]
        leader = {"bid": bid, "group": "red", "node": node, "term": term}
        more = {"resigned": self.resigned == term, "text": self.text} if self.resigned or self.text else {}
        return 200, json.dumps({"by": 1, "leader": leader, "present": self.is_present(), **more})


class PresenceTest(Beside, BesideStatus):
    def setUp(self) -> None:
        self.votes = Votes()
        self.held: list[Lock] = []
        self.addCleanup(lambda: [lock.resign() for lock in self.held])
        for what, value in (("election.secrets.randbelow", mock.Mock(return_value=0)), ("keeper.EVERY", 0.02),
                            ("locking.ABSENT", 0.3), ("presence.LOOKS", 0.01)):
            patch = mock.patch(f"cinoweta.{what}", value)
            patch.start()
            self.addCleanup(patch.stop)

    def votes_ring(self, host: str = OTHER) -> tuple[Ring, list[Node]]:
        """Nodes that know the same, elect who stands at node 1, and are told of."""
        ring, nodes = self.ring(self.votes, self.votes, timeout=0.5, host=host)
        ring.status = self.serve(Told(self.votes, nodes[0]), host)
        return ring, nodes

    def lock(self, ring: Ring, **words: object) -> Lock:
        self.held.append(Lock(ring, "red", **{"across_hosts": True, **words}))
        return self.held[-1]

    def until(self, is_so: object) -> None:
        until = time.monotonic() + PATIENCE
        while not is_so():
            self.assertLess(time.monotonic(), until)
            time.sleep(0.005)

    def test_it_is_held_within_with(self) -> None:
        ring, nodes = self.votes_ring()
        with self.lock(ring, rank=3) as held:
            bid = self.votes.stood[1]
            self.assertEqual((bid // 100_000_000, held.term, held.is_lost(), len(nodes[0].present)), (3, 1, False, 1))
            self.assertEqual(holder(ring, "red", across_hosts=True), Holder(1, Leader(1, bid), None, ""))
            # Its session is not silent.
            before = nodes[0].lines.count("latest red")
            self.until(lambda: nodes[0].lines.count("latest red") > before + 3)
        self.until(lambda: not nodes[0].present)
        self.assertEqual((held.is_lost(), holder(ring, "red", across_hosts=True)), (True, None))
        with held:
            self.assertEqual(held.term, 2)

    @tried
    def test_who_holds_it_is_told_in_time(self) -> None:
        ring, _ = self.votes_ring()
        with self.lock(ring):
            for wait in (0.0, 0.3):
                before = time.monotonic()
                with self.assertRaises(LockTaken) as caught, self.lock(ring, wait=wait):
                    pass
                self.assertEqual(str(caught.exception), "red: held by node 1 in term 1")
                took(before, wait + 1.0, wait)
        self.assertEqual(len(self.votes.stood), 1)

    def test_it_is_taken_once_the_holder_is_not_present(self) -> None:
        ring, _ = self.votes_ring()
        first, said = self.lock(ring), []
        first.acquire()
        threading.Timer(0.3, first.resign).start()
        before = time.monotonic()
        with self.lock(ring) as second:
            self.assertGreater(time.monotonic() - before, 0.5)
            self.assertEqual(second.term, 2)
        with self.lock(ring, patience=0.0) as third:
            self.assertEqual((third.term, said), (3, []))

    def test_how_long_who_is_gone_is_waited_for(self) -> None:
        self.assertEqual(presence.ABSENT, 2.0)

    @tried
    def test_who_is_absent_for_two_seconds_is_gone_whatever_the_patience(self) -> None:
        ring, nodes = self.votes_ring()
        for patience, least, most in ((60.0, 1.0, 3.0), (0.0, 0.0, 0.8)):
            self.votes.leaders[max(self.votes.leaders, default=0) + 1] = (1, SPREAD + 5)
            with mock.patch("cinoweta.locking.ABSENT", 1.0):
                before = time.monotonic()
                self.assertIsNone(holder(ring, "red", patience, across_hosts=True))
                took(before, most, least, what=patience)
                before = time.monotonic()
                self.lock(ring, patience=patience).acquire()
                took(before, most, least, what=patience)
            self.held[-1].resign()
            self.until(lambda: not nodes[0].present)

    @tried
    def test_who_gives_up_is_waited_for_so_much_longer(self) -> None:
        self.assertEqual([gives_up_after(Presence(None, "red", 9, "", seconds).bid) for seconds in (None, 0.5, 1.0, 4.0, 600.0)],
                         [0, 1, 1, 5, 600])
        with self.assertRaises(ValueError):
            Presence(None, "red", 0, "", 601.0)
        known = Led(5, Leader(1, Presence(None, "red", 0, "", 1.0).bid))
        with mock.patch.object(Ring, "present", return_value=Sight(5, *known.leader, False, False, "")):
            before = time.monotonic()
            self.assertFalse(is_there(Ring(7101, 7103, status=7100), "red", known, 0.2))
            took(before, 2.5, 1.2)

    def resigning(self) -> tuple[Ring, list[Node], Told]:
        """A ring whose nodes and status port know who resigns, and what holders tell."""
        ring, nodes = self.votes_ring()
        told = Told(self.votes, nodes[0])
        ring.status = self.serve(told, OTHER)

        def answer(line: str) -> str:
            words = line.split(" ", 2)
            if words[0] == "resign":
                told.resigned = int(words[2])
            elif words[0] == "tell":
                told.text = words[2]
            return {"resign": "resigned", "tell": "told"}.get(words[0]) or self.votes(line)

        nodes[0].answer = nodes[1].answer = answer
        return ring, nodes, told

    @tried
    def test_who_waits_is_told_at_once_that_it_resigned(self) -> None:
        ring, nodes, told = self.resigning()
        with mock.patch("cinoweta.locking.ABSENT", 5.0):
            first, second = self.lock(ring), self.lock(ring)
            first.acquire()
            thread = threading.Thread(target=second.acquire, daemon=True)
            thread.start()
            # A look once a second comes to a pause of half of one by now.
            time.sleep(0.6)
            before = time.monotonic()
            first.resign()
            self.assertIn("resign red 1", nodes[0].lines)
            thread.join(10.0)
            # Else it looks once more half a second later, and waits for five.
            took(before, 4.0)
            self.assertEqual(second.term, 2)
        self.assertTrue(any("held=1&wait=" in line for line in told.lines))

    def test_a_status_port_that_answers_at_once_is_asked_no_more_often(self) -> None:
        ring, nodes, told = self.resigning()
        with self.lock(ring), mock.patch.object(Told, "wait", lambda told, *_words: told.told()):
            with self.assertRaises(LockTaken):
                self.lock(ring, wait=2.0).acquire()
        self.assertLess(sum("held=" in line for line in told.lines), 101)

    def test_a_wait_at_the_status_port_ends_with_its_lock(self) -> None:
        ring, _, told = self.resigning()
        cancel = threading.Event()
        with self.lock(ring):
            for end, kind in (cancel.set, Cancelled), (lambda: second.resign(), Resigned):
                second = self.lock(ring)
                told.lines.clear()
                waiter = Waiter(second, cancel)
                self.until(lambda: any("held=" in line for line in told.lines))
                end()
                waiter.join(5.0)
                self.assertEqual((waiter.faults, waiter.is_alive()), ([kind], False))
                cancel.clear()

    def test_who_resigned_leaves_the_next_term_to_others_for_a_moment(self) -> None:
        ring, _, _ = self.resigning()
        with mock.patch("cinoweta.locking.GRACE", 1.0), mock.patch("cinoweta.waiting.GRACE", 5.0):
            for least in (0.0, 0.9):
                before = time.monotonic()
                with self.lock(ring):
                    self.assertGreaterEqual(time.monotonic() - before, least)

    def test_who_waited_for_more_ends_goes_first(self) -> None:
        ring, nodes, said = self.resigning()
        with mock.patch("cinoweta.locking.OLDER", 0.6):
            # Its session goes on, so that whoever leads is present as long as he did not resign.
            self.lock(ring).acquire()
            for rank, ends, least, most in (0, 1, 1.1, 9.0), (0, 3, 0.0, 0.5), (4, 1, 0.0, 0.5):
                first, waits = max(self.votes.leaders), self.lock(ring, rank=rank)
                thread = threading.Thread(target=waits.acquire, daemon=True)
                thread.start()
                for term in range(first, first + ends):
                    self.until(lambda: any(f"held={term}&" in line for line in said.lines))
                    before = time.monotonic()
                    said.resigned = term
                    if term < first + ends - 1:
                        # Another one leads meanwhile.
                        time.sleep(0.2)
                        self.votes.leaders[term + 1] = (1, SPREAD + term)
                thread.join(9.0)
                took = time.monotonic() - before
                self.assertEqual((waits.term, least <= took < most), (first + ends, True), (rank, ends, took))

    def test_what_it_tells_is_told(self) -> None:
        ring, nodes, _ = self.resigning()
        with self.lock(ring, text="a worker, b"):
            self.assertIn("tell red a worker, b", nodes[0].lines)
            bid = self.votes.stood[1]
            self.assertEqual(holder(ring, "red", across_hosts=True), Holder(1, Leader(1, bid), None, "a worker, b"))
            words = ["--ring", f"{OTHER}:{ring.first}-{ring.ports[-1]}", "holder", "red", "--across-hosts", "--status", str(ring.status)]
            self.assertEqual(told(*words), (0, f"term 1 leader 1 {bid} text a worker, b\n", ""))
            with self.assertRaises(LockTaken) as caught, self.lock(ring, wait=0.0):
                pass
            self.assertEqual(str(caught.exception), "red: held by node 1 in term 1 (a worker, b)")
            self.assertEqual(caught.exception.holder.text, "a worker, b")
            # And again where its session is opened anew.
            nodes[0].answer, answer = deaf, nodes[0].answer
            self.until(lambda: not nodes[0].present)
            nodes[0].answer = answer
            self.until(lambda: nodes[0].lines.count("tell red a worker, b") == 2)
        for text in ("a\nb", "x" * 201):
            with self.assertRaises(ValueError):
                Lock(ring, "red", text=text, across_hosts=True)

    @tried
    def test_a_holder_of_the_other_kind_is_refused_in_words(self) -> None:
        ring, nodes = self.votes_ring("127.0.0.1")
        near = Ring(ring.first, ring.ports[-1])
        with self.lock(ring) as held:
            # Whether or not the status port tells that it is present.
            for other in (near, ring):
                with self.assertRaisesRegex(WrongRing, "held across hosts, and this client is not told to, by node 1 in term 1"):
                    self.lock(other, across_hosts=False).acquire()
            self.assertFalse(held.is_lost())
        self.until(lambda: not nodes[0].present)
        # This process knows for a moment that it resigned itself; and later nothing tells, without the status port.
        time.sleep(0.3)
        with self.assertRaises(WrongRing):
            self.lock(near, across_hosts=False).acquire()
        with self.lock(ring, across_hosts=False) as held:
            self.assertEqual(held.term, 2)
            with self.assertRaisesRegex(WrongRing, "held on one host, and this client is told to hold it across hosts"):
                self.lock(ring).acquire()
        with self.lock(ring) as held:
            self.assertEqual(held.term, 3)
        self.until(lambda: not nodes[0].present)
        # An operator stood: nobody is there, for clients of either kind.
        self.votes.leaders[9] = (1, 7)
        for words in ({}, {"across_hosts": False}):
            before = time.monotonic()
            with self.lock(ring, **words):
                took(before, 1.0)
            self.until(lambda: not nodes[0].present)
            self.votes.leaders[99] = (1, 7)

    def test_a_holder_of_the_other_kind_that_could_not_be_asked_is_not_gone(self) -> None:
        ring, _ = self.votes_ring("127.0.0.1")
        connect = socket.create_connection
        with self.lock(ring, across_hosts=False) as held:
            port = port_of(self.votes.leaders[held.term][1])

            def falters(place: tuple[str, int], *words: object) -> socket.socket:
                if place[1] == port:
                    raise OSError(errno.EMFILE, "Too many open files")
                return connect(place, *words)

            with mock.patch("socket.create_connection", side_effect=falters):
                with self.assertRaises(LockTaken):
                    self.lock(ring, wait=0.0, patience=0.2).acquire()
                self.assertIsNotNone(holder(ring, "red", patience=0.2, across_hosts=True))
            with self.assertRaisesRegex(WrongRing, "held on one host"):
                self.lock(ring, wait=0.0, patience=0.2).acquire()
            self.assertFalse(held.is_lost())

    def test_it_is_present_before_nodes_retire(self) -> None:
        ring, nodes = self.votes_ring()
        self.votes.leaders[20] = (1, 5)
        seen = []

        def answer(line: str) -> str:
            seen.extend([len(nodes[0].present)] * line.startswith("retire"))
            return self.votes(line)

        nodes[0].answer = nodes[1].answer = answer
        with self.lock(ring, keep=3) as held:
            self.until(lambda: len(seen) == 2)
            self.assertEqual((held.term, self.votes.floor, seen), (21, 18, [1, 1]))

    def test_a_process_that_is_forked_leaves_it_to_its_parent(self) -> None:
        ring, nodes = self.votes_ring()
        with self.lock(ring) as held:
            in_a_child(held.resign)
            before = nodes[0].lines.count("latest red")
            self.until(lambda: nodes[0].lines.count("latest red") > before + 3)
            self.assertEqual(len(nodes[0].stands()), 2)

    def test_an_answer_that_is_late_says_nothing_of_the_time_before_it(self) -> None:
        known = Led(5, Leader(1, 7))
        answers = iter([Sight(5, 1, 7, False, False, ""), Sight(5, 1, 7, True, False, "")])

        def late(*_words: object, **_more: object) -> Sight:
            answer = next(answers)
            time.sleep(0.0 if answer.is_present else 0.3)
            return answer

        with mock.patch.object(Ring, "present", side_effect=late):
            self.assertTrue(is_there(Ring(7101, 7103, status=7100), "red", known, 0.2))

    def test_a_session_that_breaks_off_is_opened_anew(self) -> None:
        ring, nodes = self.votes_ring()
        with self.lock(ring):
            for refused in (None, "no 8 memory"):
                # The session breaks off, and is not opened while its Stand gets this.
                nodes[0].answer = deaf
                self.until(lambda: not nodes[0].present)
                before = len(nodes[0].stands())
                nodes[0].answer = lambda line: refused if line.startswith("stand ") else self.votes(line)
                self.until(lambda: len(nodes[0].stands()) > before + 3)
                self.assertFalse(nodes[0].present)
                nodes[0].answer = self.votes
                self.until(lambda: nodes[0].present)
            with self.assertRaises(LockTaken), self.lock(ring, wait=0.0):
                pass

    def test_a_lock_that_can_not_be_shown_is_not_held(self) -> None:
        ring, nodes = self.votes_ring()
        answers = iter(["stood", None, None])
        # The node stands, and is away behind that.
        def falters(line: str) -> str | None:
            told = self.votes(line)
            return next(answers, "no 25 line") if line.startswith("stand ") else told

        nodes[0].answer = nodes[1].answer = falters
        lock = self.lock(ring)
        with self.assertRaises(Refused) as caught:
            lock.acquire()
        self.assertEqual((str(caught.exception), lock.sign, lock.term), ("no 25 line", None, 0))

    def test_a_lock_whose_term_is_over_before_it_is_shown_is_taken_again(self) -> None:
        ring, nodes = self.votes_ring()
        for number, fault in enumerate(("no 4 late", "no 5 stale 2", "no 23 retired 2")):
            answers = iter(["stood", fault, "stood"])

            def answer(line: str) -> str:
                told = self.votes(line)
                if not line.startswith("stand "):
                    return told
                return next(answers, told)

            nodes[0].answer = nodes[1].answer = answer
            with self.lock(ring, patience=0.0) as held:
                self.assertEqual((held.term, len(nodes[0].present)), (2 * number + 2, 1), fault)
            self.until(lambda: not nodes[0].present)

    def test_it_is_not_present_once_it_resigned_meanwhile(self) -> None:
        ring, nodes = self.votes_ring()
        begins, ends = threading.Event(), threading.Event()

        def slow(line: str) -> str:
            if line.startswith("stand "):
                begins.set()
                ends.wait(5.0)
            return self.votes(line)

        with self.lock(ring):
            nodes[0].answer = deaf
            self.until(lambda: not nodes[0].present)
            nodes[0].answer = slow
            self.assertTrue(begins.wait(5.0))
        # It ends the session in which it waits for an answer.
        ends.set()
        before = threading.active_count()
        self.until(lambda: threading.active_count() < before or not nodes[0].present)
        time.sleep(0.1)
        self.assertFalse(nodes[0].present)

    def test_a_status_port_that_is_away_is_waited_for(self) -> None:
        ring, nodes = self.votes_ring()
        with self.lock(ring):
            port, ring.status = ring.status, 1
            said: list[str] = []
            with self.assertRaisesRegex(NoAnswer, rf"\A{OTHER}:1/leaders/red"):
                self.lock(ring, wait=0.3).acquire(tell=said.append)
            self.assertIn("waits for the ring", said[0])
            with self.assertRaises(NoAnswer):
                holder(ring, "red", across_hosts=True)
            ring.status = port

    @tried
    def test_what_the_status_port_tells(self) -> None:
        ring, nodes = self.votes_ring()
        known = Led(5, Leader(1, 7))
        # It comes to know the leader.
        threading.Timer(0.1, lambda: self.votes.leaders.update({5: (1, 7)})).start()
        nodes[0].present.add(None)
        self.assertTrue(is_there(ring, "red", known, 1.0))
        nodes[0].present.clear()
        self.assertFalse(is_there(ring, "red", known, 0.0))
        # A greater term is over at once.
        self.votes.leaders[6] = (1, 8)
        for is_present in (False, True):
            nodes[0].present.update([None] * is_present)
            before = time.monotonic()
            self.assertFalse(is_there(ring, "red", known, 9.0))
            took(before, 3.0)
        with self.assertRaisesRegex(WrongRing, rf"\A{OTHER}:{ring.status} tells of another leader of red in term 7, or none"):
            is_there(ring, "red", Led(7, Leader(1, 7)), 0.1)
        with self.assertRaises(WrongRing):
            is_there(ring, "red", Led(6, Leader(2, 8)), 0.1)
        nodes[0].present.clear()

    def test_a_leader_of_a_node(self) -> None:
        leader = {"bid": 5, "group": "red", "node": 2, "term": 7}
        port = self.serve({"/leaders/red?node=2": (200, json.dumps({"by": 2, "leader": leader, "present": True}))})
        self.assertEqual(status.leader(port, "red", 2), (7, 2, 5, True))
        self.assertIsNone(status.leader(port, "red", 1))
        for code, text in ((200, json.dumps({"leader": leader})), (200, json.dumps({"leader": leader, "present": 1})),
                           (200, "[]"), (500, "")):
            with self.assertRaises(WrongRing):
                status.leader(self.serve({"/leaders/red?node=1": (code, text)}), "red", 1)
        with self.assertRaises(NoAnswer):
            status.leader(self.serve({"/leaders/red?node=1": (503, "")}), "red", 1)

    def test_it_is_said_where_the_ring_seems_near(self) -> None:
        # As behind a tunnel.
        ring, _ = self.votes_ring("127.0.0.1")
        words = ["--ring", f"{ring.first}-{ring.ports[-1]}"]
        status_words = ["--status", str(ring.status), "--across-hosts"]
        with self.lock(ring) as held:
            bid = self.votes.stood[1]
            self.assertEqual(told(*words, "holder", "red", *status_words), (0, f"term 1 leader 1 {bid}\n", ""))
            code, out, _ = told(*words, "--json", "holder", "red", *status_words)
            self.assertEqual((code, json.loads(out)["pid"], json.loads(out)["term"]), (0, None, 1))
            code, _, err = told(*words, "lock", "--wait", "0", "red", *status_words, "--", "true")
            self.assertEqual((code, err), (6, "cinoweta: red: waits for node 1 in term 1\ncinoweta: red: held by node 1 in term 1\n"))
            self.assertFalse(held.is_lost())
        self.assertEqual(told(*words, "lock", "red", *status_words, "--", "true")[0], 0)
        self.until(lambda: told(*words, "holder", "red", *status_words)[0] == 1)

    def test_what_is_refused_before_anything_is_sent(self) -> None:
        silent = Ring.parse("10.0.0.5:7101-7103")
        said = "10.0.0.5: who holds a lock across hosts is seen by ringd --status: tell its port"
        with mock.patch("socket.create_connection") as connect:
            for refused in (lambda: Lock(silent, "red"), lambda: holder(silent, "red"),
                            lambda: Lock(Ring(7101, 7103), "red", across_hosts=True)):
                with self.assertRaisesRegex(WrongRing, "is seen by ringd --status"):
                    refused()
            for words in (["lock", "red", "--", "true"], ["holder", "red"]):
                self.assertEqual(told("--ring", "10.0.0.5:7101-7103", *words), (2, "", f"cinoweta: {said}\n"))
            silent.status = 7100
            for host in ("127.example", "localhost.example", "128.0.0.1", "0.0.0.0", "10.0.0.5"):
                with self.assertRaisesRegex(WrongRing, "a port of 127.0.0.1, or across hosts", msg=host):
                    Lock(Ring(7101, 7103, host=host, status=7100), "red", across_hosts=False)
            for words in ({"text": "a\tworker"}, {"rank": 10}, {"rank": -1}):
                with self.assertRaises(ValueError):
                    Lock(silent, "red", **words).acquire()
        connect.assert_not_called()
