#!/usr/bin/env python3
"""Tests of client.py beside a server of lines that answers as it is told. `make clients` runs them; no ringd is needed."""
import contextlib
import io
import os
import sys
import threading
import time
import unittest
from collections.abc import Callable
from unittest import mock

HERE = os.path.dirname(os.path.abspath(__file__))
sys.path[:0] = [HERE, os.path.join(HERE, "..", "clients", "python")]
import client
from client import Client, Election, Leader, NoAnswer, NoLeader, Refused
from tests.lines import Node, Votes, first


class Clock:
    """In place of the module `time`: a pause takes no time, and is kept."""

    def __init__(self) -> None:
        self.now = 0.0
        self.pauses: list[float] = []

    def monotonic(self) -> float:
        return self.now

    def sleep(self, seconds: float) -> None:
        self.now += seconds
        self.pauses.append(seconds)


class ClientTest(unittest.TestCase):
    def setUp(self) -> None:
        self.clock = Clock()
        patch = mock.patch.object(client, "time", self.clock)
        patch.start()
        self.addCleanup(patch.stop)

    def serve(self, answer: Callable[[str], str | None]) -> Node:
        node = Node(answer)
        self.addCleanup(node.end)
        return node

    def ask(self, node: Node) -> Client:
        asks = Client(node.server_address[1], node=1)
        self.addCleanup(asks.close)
        return asks


class StandTest(ClientTest):
    def test_a_stand_is_taken(self) -> None:
        node = self.serve(Votes())
        self.ask(node).stand("red", 5, 10)
        self.assertEqual(node.lines, ["stand red 5 10"])

    def test_already_with_the_same_bid_is_of_another_process(self) -> None:
        node = self.serve(Votes())
        self.ask(node).stand("red", 5, 10)
        with self.assertRaises(Refused) as caught:
            self.ask(node).stand("red", 5, 10)
        self.assertEqual((caught.exception.number, caught.exception.text), (3, "already 10"))

    def test_already_counts_after_a_try_without_an_answer(self) -> None:
        node = self.serve(first(None, "no 3 already 10"))
        self.ask(node).stand("red", 5, 10)
        self.assertEqual(node.lines, ["stand red 5 10"] * 2)

    def test_already_counts_in_a_later_call_too(self) -> None:
        node = self.serve(first(*[None] * 10, "no 3 already 10"))
        asks = self.ask(node)
        with self.assertRaises(NoAnswer):
            asks.stand("red", 5, 10)
        asks.stand("red", 5, 10)

    def test_already_with_another_bid_is_refused(self) -> None:
        with self.assertRaises(Refused):
            self.ask(self.serve(first(None, "no 3 already 11"))).stand("red", 5, 10)

    def test_another_stand_without_an_answer_is_another_one(self) -> None:
        asks = self.ask(self.serve(first(None, "stood", "no 3 already 10")))
        asks.stand("red", 4, 10)
        with self.assertRaises(Refused):
            asks.stand("red", 5, 10)

    def test_what_was_never_sent_got_no_answer_either(self) -> None:
        node = self.serve(Votes())
        asks = self.ask(node)
        with mock.patch("socket.create_connection", side_effect=ConnectionRefusedError):
            with self.assertRaises(NoAnswer):
                asks.stand("red", 5, 10)
        self.ask(node).stand("red", 5, 10)
        with self.assertRaises(Refused):
            asks.stand("red", 5, 10)

    def test_no_answer_after_ten_tries(self) -> None:
        node = self.serve(lambda _line: None)
        with self.assertRaises(NoAnswer):
            self.ask(node).latest("red")
        self.assertEqual((len(node.lines), self.clock.pauses), (10, [0.3] * 9))

    def test_a_question_that_was_left_is_not_answered_by_the_next_answer(self) -> None:
        node = self.serve(lambda line: "term 5 leader 1 10" if line == "latest red" else "none")
        asks = self.ask(node)
        asks.latest("blue")
        with mock.patch.object(asks, "connection", wraps=asks.connection) as connection:
            connection.recv.side_effect = KeyboardInterrupt
            with self.assertRaises(KeyboardInterrupt):
                asks.latest("red")
            self.assertIsNone(asks.connection)
        asks.close()
        self.assertIsNone(asks.latest("blue"))

    def test_an_answer_without_end_is_none(self) -> None:
        node = self.serve(lambda _line: "x" * 1_000_000)
        with self.assertRaises(NoAnswer):
            self.ask(node).latest("red")


class CampaignTest(ClientTest):
    def test_leads(self) -> None:
        votes = Votes()
        node = self.serve(votes)
        asks = self.ask(node)
        election = asks.campaign("red", rank=7)
        self.assertEqual(election, Election(1, Leader(1, votes.stood[1]), True))
        self.assertEqual(election.leader.bid // 1_000_000, 7)
        self.assertIsNone(asks.connection)

    def test_a_later_leader_is_not_put_aside(self) -> None:
        votes = Votes()
        votes.leaders[4] = (2, 30)
        node = self.serve(votes)
        self.assertEqual(self.ask(node).campaign("red", gone=3), Election(4, Leader(2, 30), False))
        self.assertEqual(node.stands(), [])

    def test_a_leader_that_is_gone_is(self) -> None:
        votes = Votes()
        votes.leaders[4] = (2, 30)
        election = self.ask(self.serve(votes)).campaign("red", gone=4)
        self.assertEqual((election.term, election.is_mine), (5, True))

    def test_two_at_one_node_do_not_both_lead(self) -> None:
        votes = Votes(elects=False)
        node = self.serve(votes)
        seen: list[Election] = []

        def campaign() -> None:
            # Both pick one bid: what a random number is to prevent.
            seen.append(self.ask(node).campaign("red", seconds=1e9))

        with mock.patch.object(client.secrets, "randbelow", return_value=10):
            threads = [threading.Thread(target=campaign) for _ in range(2)]
            for thread in threads:
                thread.start()
            until = time.monotonic() + 10.0
            while len(node.stands()) < 2 and time.monotonic() < until:
                pass
            votes.leaders[1] = (1, 10)
            for thread in threads:
                thread.join()
        self.assertEqual(sorted(election.is_mine for election in seen), [False, True])

    def test_each_campaign_has_a_bid_of_its_own(self) -> None:
        votes = Votes()
        asks = self.ask(self.serve(votes))
        for gone in range(5):
            asks.campaign("red", gone)
        self.assertGreater(len(set(votes.stood.values())), 1)

    def test_follows_where_it_may_not_stand(self) -> None:
        for refusal in ("no 3 already 30", "no 4 late", "no 5 stale 1", "no 23 retired 2"):
            node = self.serve(first("none", refusal, "none", "none", "term 1 leader 2 30"))
            self.assertEqual(self.ask(node).campaign("red"), Election(1, Leader(2, 30), False))
            self.assertEqual(len(node.stands()), 1)

    def test_stops_where_the_node_takes_no_stand(self) -> None:
        for refusal in ("no 6 limit", "no 7 full", "no 8 memory", "no 9 failed", "no 15 device 1", "no 1 name"):
            node = self.serve(first("none", refusal))
            with self.assertRaises(Refused) as caught:
                self.ask(node).campaign("red")
            self.assertEqual((str(caught.exception), len(node.stands())), (refusal, 1))

    def test_stands_for_so_many_terms_and_no_more(self) -> None:
        node = self.serve(Votes(elects=False))
        asks = self.ask(node)
        for _ in range(3):
            with self.assertRaises(NoLeader):
                asks.campaign("red", gone=6, terms=2, seconds=3.0)
        # The same terms each time: the second and third campaign are told `no 3 already`, and use nothing up.
        terms = [int(line.split()[2]) for line in node.stands()]
        self.assertEqual(terms, [7, 8] * 3)

    def test_waits_with_a_growing_pause(self) -> None:
        with self.assertRaises(NoLeader):
            self.ask(self.serve(Votes(elects=False))).campaign("red", terms=1, seconds=10.0)
        self.assertEqual(self.clock.pauses, sorted(self.clock.pauses))
        self.assertEqual((self.clock.pauses[0], self.clock.pauses[-1]), (0.02, 1.0))
        self.assertLess(len(self.clock.pauses), 20)

    def test_a_term_that_is_decided_late_is_led(self) -> None:
        votes = Votes(elects=False)

        def answer(line: str) -> str:
            told = votes(line)
            if line.startswith("stand red 2 "):
                votes.leaders[1] = (1, votes.stood[1])
            return told

        election = self.ask(self.serve(answer)).campaign("red", seconds=1.0)
        self.assertEqual((election.term, election.is_mine), (1, True))

    def test_needs_to_know_the_node(self) -> None:
        with self.assertRaises(ValueError):
            Client(1).campaign("red")


class MainTest(ClientTest):
    def run_main(self, node: Node, *words: str) -> tuple[int, str]:
        with contextlib.redirect_stdout(io.StringIO()) as out, contextlib.redirect_stderr(io.StringIO()):
            return client.main([str(node.server_address[1]), *words]), out.getvalue()

    def test_statuses(self) -> None:
        node = self.serve(Votes())
        self.assertEqual(self.run_main(node, "stand", "red", "5", "10"), (0, "stood\n"))
        self.assertEqual(self.run_main(node, "stand", "red", "5", "10"), (1, "no 3 already 10\n"))
        self.assertEqual(self.run_main(node, "who", "red", "5"), (0, "leader 1 10\n"))
        self.assertEqual(self.run_main(node, "latest", "blue"), (0, "term 5 leader 1 10\n"))
        self.assertEqual(self.run_main(node, "stand", "red", "five", "10"), (2, ""))
        self.assertEqual(self.run_main(self.serve(lambda _line: None), "latest", "red"), (3, ""))


if __name__ == "__main__":
    unittest.main()
