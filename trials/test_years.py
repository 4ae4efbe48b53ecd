"""The book of a ring that lives for long, and its clients beside rings that are played, right ones and wrong ones."""
import os
import random
import sys
import tempfile
import threading
import time
import unittest

HERE = os.path.dirname(os.path.abspath(__file__))
PACKAGE = os.path.join(HERE, "..", "clients", "python")
sys.path[:0] = [HERE, PACKAGE, os.path.join(PACKAGE, "tests")]
from known import GROUPS, Known, Question, Session
from lines import serve
from test_known import ForgetsFloors, Ring
from years import NODES, Book, Years

# How long a ring that is played is waited for at most, in seconds, and how many elections it has to have.
PATIENCE, ELECTIONS = 120.0, 60
# So many messages of it are handed on at each question, beside its own choice.
MESSAGES = 20


def told(book: Book, text: str) -> list[str]:
    """The faults of a book of lines, each with its node and its answer."""
    for line in text.splitlines():
        words, _, answer = line.partition(": ")
        node, word, group, *numbers = words.split(" ")
        book.ask(int(node), Question(word, group, *map(int, numbers)), Session(), lambda: answer)
    return book.known.faults


def elected(term: int, floor: int = 0) -> str:
    """A term of a leader at node 1 whom all nodes name. Behind that all retire the terms below the floor, and show it."""
    lines = [f"1 stand red {term} 5: stood", *(f"{node} latest red: term {term} leader 1 5" for node in range(1, NODES + 1))]
    for node in range(1, NODES + 1) if floor > 1 else []:
        lines += [f"{node} retire red {floor}: retired", f"{node} who red {floor - 1}: no 23 retired {floor}"]
    return "\n".join(lines)


class BookTest(unittest.TestCase):
    def setUp(self) -> None:
        self.book = Book(Known(NODES, False))

    def test_a_second_leader_is_a_fault(self) -> None:
        self.assertEqual(told(self.book, elected(1)), [])
        self.assertEqual(told(self.book, "2 stand red 1 9: no 4 late"), [])
        self.assertEqual(len(told(self.book, "3 latest red: term 1 leader 2 9")), 1)

    def test_a_refusal_for_want_of_room_is_a_fault(self) -> None:
        for line in ("1 stand red 1 5: no 7 full", "1 stand red 1 5: no 6 limit", "1 retire red 1: no 7 full"):
            self.assertTrue(told(Book(Known(NODES, False)), line), line)

    def test_a_long_life_is_a_short_book(self) -> None:
        for term in range(1, 301):
            self.assertEqual(told(self.book, elected(term, term - 10)), [])
            self.book.forget()
        known = self.book.known
        self.assertEqual(self.book.elections(), 300)
        for book in (known.asked, known.stood, known.told, known.leaders, known.retired, known.floors_asked[1, "red"], self.book.open):
            self.assertLess(len(book), 50)
        self.assertEqual(len(told(self.book, "2 latest red: term 5 leader 1 5")), 1)

    def test_what_an_open_question_may_tell_of_is_kept(self) -> None:
        def late() -> str:
            for term in range(6, 30):
                told(self.book, elected(term, term - 3))
                self.book.forget()
            return "term 5 leader 1 5"

        told(self.book, elected(5))
        self.book.ask(2, Question("latest", "red"), Session(), late)
        self.assertEqual((self.book.known.faults, self.book.forgotten), ([], 0))
        self.book.forget()
        self.book.forget()
        self.assertEqual(self.book.forgotten, 21)

    def test_how_slow_stands_were(self) -> None:
        self.book.times = [place / 1000 for place in range(200, 0, -1)]
        self.assertAlmostEqual(self.book.slow(), 198.0)
        self.book.times = [0.005]
        self.assertAlmostEqual(self.book.slow(), 5.0)
        self.assertNotEqual(self.book.slow(), self.book.slow())


class Lies(Ring):
    """Of what it has told often a node names another leader."""

    def reply(self, place: int, line: str) -> str:
        answer = super().reply(place, line)
        node = answer.split(" ")[-2] if answer.startswith("term ") else ""
        is_lie = node and place == 3 and len(self.nodes[2].inputs) > 100
        return answer.replace(f" leader {node} ", f" leader {int(node) % NODES + 1} ") if is_lie else answer


class YearsTest(unittest.TestCase):
    def played(self, kind: type[Ring]) -> Years:
        """The trial beside a ring that is played: its clients, what it shows and forgets, its looks before a start and behind it."""
        ring, lock = kind(random.Random(1)), threading.Lock()

        def answers(place: int):
            def answer(line: str) -> str:
                with lock:
                    # Clients that end ask seldom, and a ring that is played moves on where it is asked alone.
                    for _ in range(MESSAGES):
                        ring.hand_on(ring.rng.choice(ring.nodes))
                    return ring.answer(place, line)
            return answer

        nodes = serve(*(answers(place) for place in range(1, NODES + 1)))
        with tempfile.TemporaryDirectory() as folder:
            years = Years("", 1, 65_536)
            years.make(folder)
            years.ring.port = nodes[0].server_address[1]
            threads = years.begin()
            self.await_age(years)
            years.finish(threads)
            ring.start()
            years.known.process_ended()
            years.look()
            years.end()
        for node in nodes:
            node.end()
        return years

    def await_age(self, years: Years) -> None:
        """Waits until so many terms have a leader, and some of each group are forgotten; or there is a fault."""
        until = time.monotonic() + PATIENCE
        while not years.known.faults and not (years.book.elections() >= ELECTIONS and self.has_forgotten(years)):
            self.assertLess(time.monotonic(), until)
            years.show()
            years.book.forget()
            time.sleep(0.05)

    def has_forgotten(self, years: Years) -> bool:
        """Whether it forgot a term of each group."""
        return all(years.known.forgotten.get(group, 0) > 1 for group in GROUPS)

    def test_a_right_ring_has_no_fault(self) -> None:
        years = self.played(Ring)
        self.assertEqual(years.known.faults, [])
        self.assertTrue(self.has_forgotten(years))

    def test_wrong_ones_have_one(self) -> None:
        for kind in (Lies, ForgetsFloors):
            with self.subTest(kind.__name__):
                self.assertTrue(self.played(kind).known.faults)

    def test_memory_that_grows_is_told(self) -> None:
        years = Years("", 1, 65_536)
        for memory, faults in (([[9, 9, 9, 9, 100, 110], [9, 9, 9, 9, 100, 90]], 0), ([[9, 9, 9, 9, 100, 111], [9, 9, 9, 9, 100, 100]], 1),
                               ([[9, 9, 9, 9, 100, 120], [9, 9, 9, 9, 100, 300, 111]], 2)):
            years.memory = memory
            self.assertEqual(len(years.grown()), faults)


if __name__ == "__main__":
    unittest.main()
