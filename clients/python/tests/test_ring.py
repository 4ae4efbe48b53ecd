"""A Ring beside servers of lines that answer as they are told."""
import contextlib
import io
import json
import os
import socket
import threading
import time
import unittest
from collections.abc import Callable
from unittest import mock

from cinoweta import (AlreadyStands, Election, Full, Leader, Led, LimitReached, NoAnswer, NodeFailed, NoLeader, Refused,
                      Retired, Ring, Undecided, WrongRing)
from cinoweta.command import main
from cinoweta.election import Campaign
from cinoweta.errors import KINDS, refusal
from cinoweta.steps import at_once

from .clock import took, tried
from .lines import Node, Votes, first, serve


def deaf(_line: str) -> None:
    return None


class Beside(unittest.TestCase):
    def ring(self, *answers: Callable[[str], str | None], timeout: float = 3.0,
             host: str = "127.0.0.1") -> tuple[Ring, list[Node]]:
        nodes = serve(*answers, host=host)
        ring = Ring(nodes[0].server_address[1], nodes[-1].server_address[1], host=host, timeout=timeout)
        self.addCleanup(ring.close)
        for node in nodes:
            self.addCleanup(node.end)
        return ring, nodes


class RingTest(Beside):
    def test_another_node_is_asked_where_one_does_not_answer(self) -> None:
        ring, nodes = self.ring(deaf, Votes())
        self.assertIsNone(ring.latest("red"))
        self.assertEqual([len(node.lines) for node in nodes], [1, 1])

    def test_a_stand_stays_with_its_node(self) -> None:
        ring, nodes = self.ring(deaf, Votes(), timeout=0.2)
        with self.assertRaises(NoAnswer):
            ring.stand("red", 5, 10)
        self.assertEqual(nodes[1].lines, [])

    def test_already_is_of_another_process(self) -> None:
        ring, _ = self.ring(Votes(), Votes())
        ring.stand("red", 5, 10)
        with self.assertRaises(AlreadyStands):
            ring.stand("red", 5, 10)

    def test_already_counts_after_no_answer_of_the_same_node(self) -> None:
        ring, _ = self.ring(first(None, "no 3 already 10"), first("no 3 already 10"))
        ring.stand("red", 5, 10)
        with self.assertRaises(AlreadyStands):
            ring.stand("red", 5, 10, node=2)

    def test_a_stand_without_an_answer_is_not_that_of_a_child(self) -> None:
        ring, nodes = self.ring(deaf, Votes(), timeout=0.2)
        with self.assertRaises(NoAnswer):
            ring.stand("red", 5, 10)
        nodes[0].answer, ring.timeout = lambda _line: "no 3 already 10", 3.0
        with mock.patch.object(os, "getpid", return_value=0), self.assertRaises(AlreadyStands):
            ring.stand("red", 5, 10)

    def test_what_is_remembered_is_bounded(self) -> None:
        ring = Ring(7101, 7103, timeout=0.0)
        with mock.patch("cinoweta.ring.Session") as session:
            session.return_value.ask.side_effect = ConnectionResetError
            session.return_value.is_usable.return_value = False
            for term in range(1, 1_100):
                with self.assertRaises(NoAnswer):
                    ring.stand("red", term, 10)
        self.assertEqual(len(ring.unanswered), 1_024)

    def test_a_late_answer_is_not_that_of_another_line(self) -> None:
        def slow(line: str) -> str:
            time.sleep(0.3 if line == "latest red" else 0.0)
            return "term 5 leader 1 10" if line == "latest red" else "none"

        ring, _ = self.ring(slow, slow, timeout=0.1)
        with self.assertRaises(NoAnswer):
            ring.latest("red", node=1)
        time.sleep(0.4)
        ring.timeout = 3.0
        self.assertIsNone(ring.latest("blue", node=1))

    @tried
    def test_the_last_try_takes_no_longer_than_is_left(self) -> None:
        ring, _ = self.ring(lambda _line: time.sleep(5.0), deaf, timeout=1.0)
        before = time.monotonic()
        with mock.patch("cinoweta.asking.PATIENCE", 0.6), self.assertRaises(NoAnswer):
            ring.latest("red", node=1)
        took(before, 1.2, 0.9)

    def test_a_stand_may_be_there_though_the_device_failed(self) -> None:
        for fault in ("no 9 failed", "no 15 device 1"):
            ring, _ = self.ring(first(fault, "no 3 already 10", "no 3 already 10"), first("no 3 already 10"))
            with self.assertRaises(Refused):
                ring.stand("red", 5, 10)
            ring.stand("red", 5, 10)
            for node, bid in ((1, 11), (2, 10)):
                with self.assertRaises(AlreadyStands):
                    ring.stand("red", 5, bid, node=node)

    def test_a_question_that_was_left_ends_its_session(self) -> None:
        ring, _ = self.ring(lambda line: "term 5 leader 1 10" if line == "latest red" else "none", deaf)
        ring.latest("blue")
        left = ring.session
        with mock.patch.object(left, "connection", wraps=left.connection) as connection:
            connection.recv.side_effect = KeyboardInterrupt
            with self.assertRaises(KeyboardInterrupt):
                ring.latest("red")
        self.assertFalse(left.is_usable())
        self.assertIsNone(ring.latest("blue"))

    def test_a_session_is_ended_once_nothing_is_asked_over_it(self) -> None:
        ring, _ = self.ring(Votes(), Votes())
        ring.latest("red")
        kept, until = ring.session, time.monotonic() + 1.5
        while time.monotonic() < until:
            ring.latest("red")
        self.assertIs(ring.session, kept)
        while ring.session is not None:
            self.assertLess(time.monotonic(), until + 5.0)
            time.sleep(0.01)
        self.assertFalse(kept.is_usable())
        self.assertIsNone(ring.latest("red"))

    def test_a_session_that_the_system_joined_to_itself_is_none(self) -> None:
        joined: list[socket.socket] = []

        def join(*_words: object) -> socket.socket:
            joined.append(socket.socket())
            joined[-1].bind(("127.0.0.1", 0))
            joined[-1].connect(joined[-1].getsockname())
            return joined[-1]

        with mock.patch("socket.create_connection", join), self.assertRaisesRegex(NoAnswer, "7101: nobody listens"):
            Ring(7101, 7103, timeout=0.2).latest("red", 1)
        self.assertEqual({connection.fileno() for connection in joined}, {-1})

    def test_answers_that_are_none(self) -> None:
        for answer in ("stood", "leader 1 x", "HTTP/1.1 400", "term 1 leader 1", ""):
            ring, _ = self.ring(lambda _line, told=answer: told, deaf)
            with self.assertRaises(WrongRing):
                ring.latest("red")
        ring, _ = self.ring(lambda _line: "x" * 10_000_000, lambda _line: "none\nnone", timeout=0.3)
        with self.assertRaises(NoAnswer):
            ring.latest("red")

    def test_a_node_retires(self) -> None:
        votes = Votes()
        votes.leaders[9] = (1, 5)
        ring, nodes = self.ring(deaf, votes)
        with self.assertRaises(Undecided):
            ring.retire("red", 10, node=2)
        # What it gave up already is given up.
        self.assertEqual([ring.retire("red", floor, node=2) for floor in (8, 8, 3, 9)], [8, 8, 8, 9])
        with self.assertRaises(Retired) as caught:
            ring.who("red", 8, node=2)
        self.assertEqual((caught.exception.floor, str(caught.exception)), (9, "no 23 retired 9"))
        self.assertEqual(nodes[0].lines, [])

    def test_a_retire_that_got_no_answer_is_asked_again(self) -> None:
        ring, nodes = self.ring(first(None, "no 23 retired 5"), deaf)
        self.assertEqual(ring.retire("red", 5, node=1), 5)
        self.assertEqual(nodes[0].lines, ["retire red 5"] * 2)

    def test_what_is_no_answer_to_a_retire(self) -> None:
        ring, _ = self.ring(first("no 23 retired 4", "no 23 gone", "no 25 line", "stood"), deaf)
        for kind in (Retired, Retired, Refused, WrongRing):
            with self.assertRaises(kind):
                ring.retire("red", 5, node=1)

    def test_each_refusal_is_of_its_kind(self) -> None:
        for number, kind in KINDS.items():
            fault = refusal(f"no {number} some text")
            self.assertEqual((type(fault), fault.number, fault.text), (kind, number, "some text"))
        self.assertIs(type(refusal("no 99 new")), Refused)
        self.assertIsNone(refusal("none"))

    def test_ports(self) -> None:
        ring = Ring.parse("7101-7103")
        self.assertEqual((ring.first, ring.nodes), (7101, 3))
        for ports in ("7101", "7103-7101", "7101-7101", "7101-7117", "0-2", "65535-65536", "a-b", "", "7101-7103 "):
            with self.assertRaises(WrongRing, msg=ports):
                Ring.parse(ports)
        for port in (0, 65_536):
            with self.assertRaises(WrongRing, msg=port):
                Ring(7101, 7103, status=port)
        # A third port is no time to wait.
        with self.assertRaises(TypeError):
            Ring(7101, 7102, 7103)

    def test_lines_that_are_none(self) -> None:
        ring, nodes = self.ring(Votes(), Votes())
        for group in ("red\nstand red 1 1", "bye"):
            with self.assertRaises(ValueError):
                ring.ask(group)
        with self.assertRaises(ValueError):
            ring.stand("red", 1, 1, node=3)
        self.assertEqual(nodes[0].lines, [])


class CampaignTest(Beside):
    def campaign(self, ring: Ring, **words: int) -> Election:
        return ring.campaign("red", node=1, seconds=0.1, **words)

    def test_leads(self) -> None:
        votes = Votes()
        ring, _ = self.ring(votes, Votes())
        self.assertEqual(self.campaign(ring, rank=3), Election(1, Leader(1, votes.stood[1]), True))
        self.assertEqual(votes.stood[1] // 1_000_000, 3)
        self.assertIsNone(ring.session)

    def test_a_later_leader_is_not_put_aside(self) -> None:
        votes = Votes()
        votes.leaders[4] = (2, 30)
        ring, nodes = self.ring(votes, votes)
        self.assertEqual(self.campaign(ring, gone=3), Election(4, Leader(2, 30), False))
        self.assertEqual(nodes[0].stands(), [])
        self.assertTrue(self.campaign(ring, gone=4).is_mine)

    def test_one_bid_at_one_node_does_not_make_two_leaders(self) -> None:
        votes = Votes()
        votes.elects = False
        ring, nodes = self.ring(votes, votes)
        votes.stood[1] = 10

        def decided(line: str) -> str:
            told = votes(line)
            votes.leaders = {1: (1, 10)} if line.startswith("stand") else votes.leaders
            return told

        nodes[0].answer = decided
        self.assertFalse(ring.campaign_with(10, "red", node=1, seconds=0.1).is_mine)

    def test_a_bid_that_leads_at_another_node_is_of_another_process(self) -> None:
        lines = {"latest red": "none", "stand red 1 10": "stood"}

        def node(line: str) -> str:
            told = lines[line]
            lines["latest red"] = "term 1 leader 2 10" if told == "stood" else lines["latest red"]
            return told

        for answers, is_known in ((("no 3 already 10",), True), (("no 4 late",), False), (("stood",), False),
                                  (("no 3 already 11",), False), ((None,) * 9, None)):
            lines["latest red"] = "none"
            ring, nodes = self.ring(node, first(*answers), timeout=2.0)
            if is_known:
                self.assertEqual(ring.campaign_with(10, "red", node=1, seconds=1.0), Election(1, Leader(2, 10), False))
            else:
                # A node that does not answer may know it.
                with self.assertRaises(NoAnswer if is_known is None else WrongRing):
                    ring.campaign_with(10, "red", node=1, seconds=1.0)
            self.assertEqual(({*nodes[1].lines}, ring.unanswered), ({"stand red 1 10"}, {}))
        # Nor of a ring that has no such node.
        lines["latest red"] = "none"
        ring, _ = self.ring(lambda line: node(line).replace("leader 2", "leader 3"), deaf)
        with self.assertRaisesRegex(WrongRing, "who stood at node 1 leads at node 3: give all ports"):
            ring.campaign_with(10, "red", node=1, seconds=0.1)

    def test_goes_to_another_node_where_one_does_not_answer(self) -> None:
        votes = Votes()

        def busy(line: str) -> str | None:
            return None if line.startswith("stand") else votes(line)

        ring, nodes = self.ring(busy, votes, timeout=0.2)
        with mock.patch("cinoweta.election.secrets.randbelow", return_value=0):
            self.assertTrue(ring.campaign("red", seconds=0.1).is_mine)
            nodes[1].answer = busy
            with self.assertRaises(NoAnswer):
                ring.campaign("red", gone=1, seconds=0.1)
        self.assertEqual([bool(node.stands()) for node in nodes], [True, True])

    def test_stops_where_no_stand_is_taken(self) -> None:
        for answer, kind in (("no 7 full", Full), ("no 9 failed", NodeFailed), ("no 6 limit", LimitReached)):
            ring, nodes = self.ring(first("none", answer), deaf)
            with self.assertRaises(kind):
                self.campaign(ring)
            self.assertEqual([len(node.stands()) for node in nodes], [1, 0])

    def test_goes_to_another_node_at_its_limit(self) -> None:
        def used(line: str) -> str:
            return "no 6 limit" if line.startswith("stand") else "none"

        ring, nodes = self.ring(used, used, used)
        with self.assertRaises(LimitReached):
            ring.campaign("red", seconds=0.1)
        self.assertEqual([len(node.stands()) for node in nodes], [1, 1, 1])

    def test_the_same_terms_are_stood_for_again(self) -> None:
        votes = Votes(elects=False)
        ring, nodes = self.ring(votes, votes)
        for _ in range(2):
            with self.assertRaises(NoLeader):
                self.campaign(ring, gone=6, terms=2)
        self.assertEqual([int(line.split()[2]) for line in nodes[0].stands()], [7, 8, 7, 8])

    def test_who_is_not_well_is_told_where_nobody_comes_to_lead(self) -> None:
        votes = Votes(elects=False)
        ring, _ = self.ring(votes, votes)
        ring.status = 7100
        for health, told in (((503, "node 2 failed\nnode 3 full\n"), ": node 2 failed, node 3 full"), ((200, ""), ""),
                             (NoAnswer("7100"), "")):
            answer = {"side_effect": health} if isinstance(health, Exception) else {"return_value": health}
            with mock.patch("cinoweta.status.ask", **answer), self.assertRaises(NoLeader) as caught:
                self.campaign(ring)
            self.assertEqual(str(caught.exception), f"red: no leader in 3 terms above 0{told}")
            self.assertEqual(caught.exception.faults, told[2:].split(", ") if told else [])

    def test_who_may_not_stand_follows(self) -> None:
        for refusal in ("no 3 already 30", "no 4 late", "no 5 stale 9", "no 23 retired 8"):
            ring, nodes = self.ring(first("none", refusal, "none", "term 9 leader 2 30"), deaf)
            self.assertEqual(self.campaign(ring), Election(9, Leader(2, 30), False))
            self.assertEqual(len(nodes[0].stands()), 1)

    def test_who_leads_retires_the_terms_far_below(self) -> None:
        votes = [Votes(), Votes(), Votes()]
        ring, nodes = self.ring(*votes)
        for each in votes:
            each.leaders[14] = (1, 30)
        # The others have not heard yet who leads in term 15, but know enough.
        self.assertTrue(self.campaign(ring, gone=14).is_mine)
        self.assertEqual([node.lines[-1] for node in nodes], ["retire red 13"] * 3)
        self.assertEqual([each.floor for each in votes], [13, 13, 13])
        self.assertTrue(self.campaign(ring, gone=15, keep=1).is_mine)
        self.assertEqual([each.floor for each in votes], [15, 13, 13])

    def test_each_node_is_now_and_then_the_first_that_retires(self) -> None:
        # A process may end before the last ones are asked.
        votes, asked = Votes(), []

        def at(node: int) -> Callable[[str], str]:
            def answer(line: str) -> str:
                asked.extend([node] * line.startswith("retire"))
                return votes(line)
            return answer

        ring, _ = self.ring(at(1), at(2), at(3))
        for gone in range(20, 60):
            self.assertTrue(self.campaign(ring, gone=gone).is_mine)
        self.assertEqual((len(asked), {*asked[::3]}), (120, {1, 2, 3}))

    def test_who_leads_holds_no_door_while_nodes_retire(self) -> None:
        votes, seen = Votes(), []

        def answer(line: str) -> str:
            seen.extend([ring.session] * line.startswith("retire"))
            return votes(line)

        ring, _ = self.ring(answer, answer)
        self.campaign(ring, gone=20)
        self.assertEqual(seen, [None, None])

    def test_who_does_not_lead_or_keeps_all_terms_retires_none(self) -> None:
        votes = Votes()
        ring, nodes = self.ring(votes, votes)
        self.campaign(ring, gone=2)
        self.campaign(ring, gone=900, keep=900)
        self.assertFalse(self.campaign(ring, gone=20).is_mine)
        self.assertEqual([line for node in nodes for line in node.lines if line.startswith("retire")], [])
        with self.assertRaises(ValueError):
            self.campaign(ring, gone=901, keep=-1)

    def test_who_leads_does_so_where_nodes_do_not_retire(self) -> None:
        votes = Votes()
        answers = iter(["no 25 line", None, "no 9 failed", "none"])

        def refuses(line: str) -> str | None:
            return next(answers) if line.startswith("retire") else votes(line)

        ring, nodes = self.ring(*[refuses] * 4)
        with mock.patch("cinoweta.election.SECONDS", 0.01):
            self.assertTrue(self.campaign(ring, gone=20).is_mine)
        self.assertEqual([node.lines.count("retire red 19") for node in nodes], [1, 1, 1, 1])
        self.assertIsNone(ring.session)

    def test_a_stand_without_an_answer_may_lead(self) -> None:
        votes = Votes()
        ring, nodes = self.ring(votes, votes, timeout=0.2)
        nodes[0].answer = lambda line: votes(line) and None if line.startswith("stand") else votes(line)
        campaign = Campaign(ring, "red", 0, 10, 1)
        with self.assertRaises(NoAnswer):
            at_once(campaign.run(1, 0.1))
        self.assertEqual(at_once(campaign.run(1, 0.1)), Election(1, Leader(1, 10), True))

    def test_ports_that_do_not_begin_with_node_1_are_seen(self) -> None:
        votes = Votes()

        def second(line: str) -> str:
            return votes(line).replace("leader 1", "leader 2")

        # What is taken for node 2 is node 3.
        ring, _ = self.ring(second, lambda line: "no 4 late" if line.startswith("stand") else second(line))
        with self.assertRaises(WrongRing):
            self.campaign(ring)

    def test_watch(self) -> None:
        told = ["none", "term 2 leader 1 5", "term 2 leader 1 5", "term 1 leader 1 4", "term 4 leader 3 9"]
        ring, _ = self.ring(first(*told), deaf)
        seen = ring.watch("red", after=1)
        self.assertEqual([next(seen), next(seen)], [Led(2, Leader(1, 5)), Led(4, Leader(3, 9))])
        ring, _ = self.ring(deaf, deaf, timeout=0.2)
        with self.assertRaises(NoAnswer):
            next(ring.watch("red", wait=0.0))

    def test_watch_by_the_status_port(self) -> None:
        ring, nodes = self.ring(first("term 4 leader 3 9"), deaf, timeout=0.2)
        ring.status = 7100
        told = [None, Led(2, Leader(1, 5)), WrongRing("no place"), Led(6, Leader(2, 8))]
        with mock.patch.object(Ring, "coming", side_effect=told) as coming:
            seen = ring.watch("red", after=1)
            self.assertEqual([next(seen) for _ in range(3)], [Led(2, Leader(1, 5)), Led(4, Leader(3, 9)), Led(6, Leader(2, 8))])
        self.assertEqual([call.args[1] for call in coming.call_args_list], [1, 1, 2, 4])
        self.assertEqual(nodes[0].lines, ["latest red"])


    @tried
    def test_a_watch_waits_for_a_ring_that_is_away(self) -> None:
        answers = [None] * 12 + ["term 2 leader 1 5"]
        ring, nodes = self.ring(*[lambda _line: answers.pop(0)] * 2, timeout=0.1)
        with self.assertLogs("cinoweta", "WARNING") as logs:
            self.assertEqual(next(ring.watch("red")), Led(2, Leader(1, 5)))
        self.assertEqual((answers, len(logs.records)), ([], 1))
        nodes[0].answer = nodes[1].answer = deaf
        before = time.monotonic()
        with self.assertRaises(NoAnswer):
            next(ring.watch("red", wait=0.5))
        took(before, 3.0, 0.5)

    @tried
    def test_no_thread_is_left_behind_a_session_that_ended(self) -> None:
        ring, _ = self.ring(*[Votes()] * 2)
        ring.latest("red")
        ended, end = threading.Event(), ring.end_idle
        with mock.patch.object(ring, "end_idle", lambda session: (end(session), ended.set())):
            ring.close()
            ring.latest("red")
            before = time.monotonic()
            ring.close()
            self.assertTrue(ended.wait(5.0))
        # Not once it was idle for half a second.
        took(before, 0.4)


class RetireTest(Beside):
    """The command `cinoweta retire`."""

    def told(self, ring: Ring, *words: str) -> tuple[int, str, str]:
        """Its exit status, and what it prints on either stream."""
        with contextlib.redirect_stdout(io.StringIO()) as out, contextlib.redirect_stderr(io.StringIO()) as err:
            code = main(["--ring", f"{ring.first}-{ring.ports[-1]}", "--timeout", "2", "retire", *words])
        return code, out.getvalue(), err.getvalue()

    def led(self, *terms: int) -> tuple[Ring, list[Votes]]:
        """Nodes that know a leader of these terms."""
        votes = [Votes() for _ in terms]
        for each, term in zip(votes, terms):
            each.leaders[term] = (1, 5)
        return self.ring(*votes)[0], votes

    def test_all_nodes_retire_below_what_all_have_come_to(self) -> None:
        ring, votes = self.led(9, 7, 8)
        self.assertEqual(self.told(ring, "red"), (0, "node 1 retired 7\nnode 2 retired 7\nnode 3 retired 7\n", ""))
        self.assertEqual(self.told(ring, "red", "--node", "3"), (0, "node 3 retired 7\n", ""))
        self.assertEqual([each.floor for each in votes], [7, 7, 7])

    def test_a_floor_and_a_node(self) -> None:
        ring, votes = self.led(9, 7)
        self.assertEqual(self.told(ring, "red", "9", "--node", "1"), (0, "node 1 retired 9\n", ""))
        self.assertEqual([each.floor for each in votes], [9, 0])
        code, out, _ = self.told(ring, "red", "3", "--json")
        self.assertEqual((code, [json.loads(line) for line in out.splitlines()]),
                         (0, [{"group": "red", "node": 1, "floor": 9}, {"group": "red", "node": 2, "floor": 3}]))
        self.assertEqual(self.told(ring, "red", "3", "--node", "4")[0], 2)

    def test_a_node_that_does_not_keeps_no_other_one_from_it(self) -> None:
        ring, votes = self.led(9, 7, 9)
        code, out, err = self.told(ring, "red", "8")
        self.assertEqual((code, out), (36, "node 1 retired 8\nnode 3 retired 8\n"))
        self.assertEqual(err, "cinoweta: node 2: no 26 undecided\n")
        ring, nodes = self.ring(deaf, lambda _line: "no 7 full", lambda _line: "retired")
        code, out, err = self.told(ring, "red", "8", "--json")
        self.assertEqual((code, json.loads(out)["node"], len(err.splitlines())), (3, 3, 2))
        self.assertEqual(json.loads(err.splitlines()[1]), {"error": "node 2: no 7 full", "refusal": 7, "text": "full"})

    def test_where_a_node_knows_no_leader_there_is_no_floor(self) -> None:
        ring, votes = self.led(9, 7)
        del votes[1].leaders[7]
        self.assertEqual(self.told(ring, "red"), (1, "none\n", ""))
        self.assertEqual(votes[0].floor, 0)


if __name__ == "__main__":
    unittest.main()
