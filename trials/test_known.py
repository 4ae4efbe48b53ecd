"""Books of answers, right ones and wrong ones; and those of a ring that is played by pictures/nodes.py, with wrong bodies too."""
import contextlib
import os
import random
import sys
import unittest

HERE = os.path.dirname(os.path.abspath(__file__))
sys.path[:0] = [HERE, os.path.join(HERE, "..", "pictures")]
from clients import Broken, Client
from known import GROUPS, Known, Question, Session
from nodes import Candidate, Input, Key, Node, Retire, Stand, Take

NODES = 3
# A leader in term 9 whom nodes 1 and 2 know, an older one in term 4, and the floor 9 at node 1.
LED = """
1 stand red 4 5: stood
2 who red 4: leader 1 5
1 stand red 9 7: stood
1 latest red: term 9 leader 1 7
2 latest red: term 9 leader 1 7
1 who red 4: leader 1 5
"""
FLOOR = LED + "1 retire red 9: retired\n"
# The floor 9 at each node; and then that each showed it, and what is below it was forgotten.
FLOORS = FLOOR + "2 retire red 9: retired\n3 retire red 9: retired\n"
FORGOTTEN = FLOORS + "1 who red 4: no 23 retired 9\n2 who red 4: no 23 retired 9\n3 who red 8: no 23 retired 9\nforget\n"
RIGHT = [
    FLOOR + """
1 stand red 4 5: no 23 retired 9
1 stand red 8 5: no 23 retired 9
1 who red 4: no 23 retired 9
1 who red 9: leader 1 7
1 retire red 9: no 23 retired 9
1 retire red 3: no 23 retired 9
1 retire red 10: no 26 undecided
1 stand red 9 8: no 3 already 7
2 who red 4: leader 1 5
2 stand red 5 6: no 5 stale 9
2 retire red 4: retired
2 retire red 9: no 7 full
2 who red 4: leader 1 5
1 stand red 4 5: no 7 full
start
1 who red 4: no 23 retired 9
2 stand red 4 6: no 4 late
2 retire red 4: no 23 retired 4
2 retire red 9: retired
1 latest red: term 9 leader 1 7
""",
    # What a board tells may lag behind what a node did.
    FLOOR + "1 who red 4: leader 1 5\n1 who red 4: no 23 retired 9\n1 latest red: term 9 leader 1 7\n",
    # What was not answered may be or not, and a floor may be known by a refusal alone.
    LED + "1 retire red 9\nstart\n1 who red 4: leader 1 5\n1 retire red 9: retired\n",
    LED + "1 retire red 9\nstart\n1 who red 4: no 23 retired 9\n1 retire red 9: no 23 retired 9\n",
    # A node at its limit has room again behind a floor.
    "".join(f"1 stand red {term} 5: stood\n" for term in range(1, 1_025))
    + "1 stand red 1025 5: no 6 limit\n1 latest red: term 1024 leader 1 5\n1 retire red 9: retired\n1 stand red 1025 5: stood\n",
    FORGOTTEN + """
2 who red 4: no 23 retired 9
1 stand red 4 5: no 23 retired 9
3 stand red 8 5: no 23 retired 9
3 retire red 9: no 23 retired 9
1 stand red 9 8: no 3 already 7
3 latest red: term 9 leader 1 7
2 stand red 10 6: stood
start
1 who red 4: no 23 retired 9
3 who red 9: leader 1 7
2 stand red 10 7: no 3 already 6
""",
    # What one node did not show is not forgotten, but behind a start.
    FLOORS + "1 who red 4: no 23 retired 9\n2 who red 4: no 23 retired 9\nforget\n3 who red 4: leader 1 5\nstart\n"
    + "forget\n3 who red 4: no 23 retired 9\n",
]
# The last line of each is the fault.
WRONG = {
    "floors are forgotten behind a start": [
        FLOOR + f"start\n{line}\n" for line in (
            "1 who red 4: leader 1 5", "1 who red 4: none", "1 stand red 4 6: no 3 already 5", "1 stand red 6 6: no 5 stale 9",
            "1 retire red 9: retired", "1 retire red 8: retired", "1 latest red: none")],
    "a key below the floor is not retired": [
        FLOOR + f"{line}\n" for line in (
            "1 stand red 8 5: stood", "1 stand red 4 6: no 3 already 5", "1 stand red 8 5: no 4 late", "1 stand red 8 5: no 5 stale 9",
            "1 stand red 8 5: no 6 limit", "1 retire red 8: no 26 undecided", "1 retire red 9: no 7 full",
            "1 who red 4: no 23 retired 9\n1 who red 4: leader 1 5", "1 who red 4: no 23 retired 9\n1 who red 5: none")],
    "a floor falls": [
        FLOOR + "1 retire red 8: retired\n", FLOOR + "1 retire red 9: retired\n",
        LED + "1 retire red 5: retired\n1 retire red 9: retired\n1 who red 4: no 23 retired 5\nstart\n1 who red 4: no 23 retired 5\n",
        FLOOR + "1 retire red 7: no 23 retired 8\n", FLOOR + "1 stand red 4 5: no 23 retired 5\n"],
    "a floor is none that was asked for": [
        FLOOR + "1 stand red 8 5: no 23 retired 10\n", LED + "1 retire red 9: no 23 retired 9\n", LED + "1 who red 4: no 23 retired 9\n",
        FLOOR + "2 who red 4: no 23 retired 9\n", FLOOR + "1 retire blue 3: no 23 retired 9\n"],
    "a floor does not say so": [
        FLOOR + f"{line}\n" for line in (
            "1 stand red 9 5: no 23 retired 9", "1 who red 9: no 23 retired 9", "1 retire red 10: no 23 retired 9",
            "1 latest red: no 23 retired 9", "1 stand red 4 5: no 23 retired", "1 stand red 4 5: no 23 retired x")],
    "a floor is above all terms": [
        LED + "1 retire red 10: retired\n", LED + "1 retire red 10\nstart\n1 who red 9: no 23 retired 10\n", "1 retire red 1: retired\n"],
    "a floor is not above what the node told": [
        LED + "1 retire red 9: no 26 undecided\n", LED + "2 retire red 4: no 26 undecided\n",
        FLOOR + "start\n1 retire red 9: no 26 undecided\n"],
    "latest falls": [
        LED + "start\n1 latest red: term 4 leader 1 5\n", LED + "3 stand red 5 5: no 5 stale 9\nstart\n3 latest red: none\n",
        LED + "1 stand red 5 5: no 5 stale 9\n1 stand red 2 5: no 5 stale 4\n",
        LED + "1 retire red 8: retired\nstart\n1 latest red: term 4 leader 1 5\n",
        LED + "3 retire red 8: retired\nstart\n3 latest red: none\n", LED + "3 retire red 8: retired\n3 stand red 10 1: no 5 stale 7\n"],
    "a retired token is passed on": [
        "3 stand red 6 1: stood\n1 stand red 5 9: stood\n2 stand red 5 5: stood\n1 latest red: term 6 leader 3 1\n"
        "1 retire red 6: retired\n2 who red 5: leader 2 5\n"],
    "what is forgotten is told of": [
        FORGOTTEN + f"{line}\n" for line in (
            "2 who red 4: leader 1 5", "3 who red 5: none", "2 latest red: term 4 leader 1 5", "3 latest red: none",
            "1 stand red 4 5: no 3 already 5", "2 stand red 8 5: stood", "3 stand red 4 5: no 5 stale 9", "1 retire red 4: retired",
            "3 stand red 4 5: no 23 retired 5", "start\n1 latest red: term 4 leader 1 5")],
    "what is no answer": [
        LED + f"1 retire red 8: {answer}\n" for answer in ("stood", "none", "no 6 limit", "no 25 line", "no 5 stale 9", "")],
}


# How node 1 comes to retire a term in which it stands with a greater bid than node 2, whose token then comes to it. A node
# alone hands a message on.
COURSE = """
3 stand red 6 1
3
1 stand red 5 9
1
2 stand red 5 5
2
3
1 latest red
1 retire red 6
2
3
1
1
1
2 who red 5
"""


def asked(words: str) -> tuple[int, Question]:
    node, word, group, *numbers = words.split(" ")
    return int(node), Question(word, group, *map(int, numbers))


def read(text: str, is_single: bool = True) -> list[list[str]]:
    """The faults of a book: those of each of its lines."""
    known, sessions, told = Known(NODES, is_single), {}, []
    for line in filter(None, text.splitlines()):
        count = len(known.faults)
        if line == "start":
            known.process_ended()
            sessions.clear()
            continue
        if line == "forget":
            known.forget("red", known.settled("red"))
            sessions.clear()
            continue
        words, colon, answer = line.partition(": ")
        node, question = asked(words)
        session = sessions.setdefault(node, Session())
        before = known.sending(node, question, session)
        if colon:
            known.answered(node, question, before, session, answer)
        else:
            known.no_answer(node, question)
        told.append(known.faults[count:])
    return told


class BookTest(unittest.TestCase):
    def test_right_books_have_no_fault(self) -> None:
        for text in RIGHT:
            for is_single in (True, False):
                self.assertEqual([faults for faults in read(text, is_single) if faults], [])

    def test_each_wrong_book_has_one(self) -> None:
        for what, books in WRONG.items():
            for text in books:
                with self.subTest(what, last=text.splitlines()[-1]):
                    *before, last = read(text)
                    self.assertEqual((sum(map(len, before)), len(last)), (0, 1))

    def test_what_is_forgotten_is_told_at_no_door(self) -> None:
        for text in WRONG["what is forgotten is told of"]:
            with self.subTest(last=text.splitlines()[-1]):
                *before, last = read(text, is_single=False)
                self.assertEqual((sum(map(len, before)), len(last)), (0, 1))

    def test_what_a_used_up_folder_is(self) -> None:
        known, session = Known(NODES, True), Session()
        for term in range(1, 11):
            known.answered(1, question := Question("stand", "red", term, 5), known.sending(1, question, session), session, "stood")
        self.assertTrue(known.is_used_up(10))
        known.has_floor(1, "red", 3, "")
        self.assertTrue(known.is_used_up(8))
        self.assertFalse(known.is_used_up(9))


class Ring:
    """Nodes that make all durable at once, whose messages come at random moments, and boards that lag behind them."""

    def __init__(self, rng: random.Random) -> None:
        self.rng = rng
        self.nodes = [self.node(me) for me in range(1, NODES + 1)]
        self.start()

    def start(self) -> None:
        for node in self.nodes:
            node.restart(len(node.inputs), {0})
        self.boards = [self.board(node) for node in self.nodes]

    def board(self, node: Node) -> tuple[dict[str, int], dict[Key, Candidate]]:
        return dict(node.floors), dict(node.leaders)

    def answer(self, place: int, line: str) -> str:
        for _ in range(self.rng.choice([0, 0, 1, 2, 8])):
            self.hand_on(self.rng.choice(self.nodes))
        shown = self.rng.randrange(3 * NODES)
        if shown < NODES:
            self.boards[shown] = self.board(self.nodes[shown])
        return self.reply(place, line)

    def reply(self, place: int, line: str) -> str:
        node, (word, group, *numbers) = self.nodes[place - 1], line.split(" ")
        if word in ("stand", "retire"):
            is_stand = word == "stand"
            return self.submit(node, Stand(Key(group, int(numbers[0])), int(numbers[1])) if is_stand else Retire(group, int(numbers[0])))
        floors, leaders = self.boards[place - 1]
        if word == "who":
            return self.who(floors, leaders, Key(group, int(numbers[0])))
        term, leader = max(((key.term, leader) for key, leader in leaders.items() if key.group == group), default=(0, None))
        return f"term {term} leader {leader.node} {leader.bid}" if leader else "none"

    def hand_on(self, node: Node) -> None:
        """Its next message comes, where one waits."""
        to = self.nodes[node.me % NODES]
        if to.taken < len(node.sent):
            to.accept(Take(to.taken, node.sent[to.taken][0]))

    def node(self, me: int) -> Node:
        return Node(me)

    def submit(self, node: Node, asked: Stand | Retire) -> str:
        refusal = node.refusal(asked)
        if refusal is None:
            node.accept(asked)
        return refusal or ("stood" if isinstance(asked, Stand) else "retired")

    def who(self, floors: dict[str, int], leaders: dict[Key, Candidate], key: Key) -> str:
        if key.term < floors.get(key.group, 0):
            return f"no 23 retired {floors[key.group]}"
        return f"leader {leaders[key].node} {leaders[key].bid}" if key in leaders else "none"


class ForgetsFloors(Ring):
    def start(self) -> None:
        for node in self.nodes:
            node.inputs = [each for each in node.inputs if not isinstance(each, Retire)]
        super().start()


class ForgetsFloorsAlone(Ring):
    def start(self) -> None:
        super().start()
        for node in self.nodes:
            node.floors.clear()


class NamesRetired(Ring):
    def board(self, node: Node) -> tuple[dict[str, int], dict[Key, Candidate]]:
        return {}, dict(node.leaders)


class Keeps(Ring):
    """No key is dropped, and no Stand is held against a floor."""

    def submit(self, node: Node, asked: Stand | Retire) -> str:
        if isinstance(asked, Stand):
            floors, node.floors = node.floors, {}
            told = super().submit(node, asked)
            node.floors = floors
            return told
        return super().submit(node, asked)


class TakesAnyFloor(Ring):
    def submit(self, node: Node, asked: Stand | Retire) -> str:
        if isinstance(asked, Retire):
            node.accept(asked)
            return "retired"
        return super().submit(node, asked)


class TakesLessFloors(Ring):
    def submit(self, node: Node, asked: Stand | Retire) -> str:
        floor = node.floors.pop(asked.group, 0) if isinstance(asked, Retire) else 0
        told = super().submit(node, asked)
        if floor and told != "retired":
            node.floors[asked.group] = floor
        return told


class RefusesFloors(Ring):
    def submit(self, node: Node, asked: Stand | Retire) -> str:
        return "no 26 undecided" if isinstance(asked, Retire) else super().submit(node, asked)


class RetiresTheFloorItself(Ring):
    def submit(self, node: Node, asked: Stand | Retire) -> str:
        told = super().submit(node, asked)
        if told == "retired":
            node.leaders = {key: leader for key, leader in node.leaders.items() if key != Key(asked.group, asked.floor)}
        return told


class PassesOn(Ring):
    """A retired token is heard, by a node that has nothing of its key."""

    class Node(Node):
        def accept(self, asked: Input) -> str:
            told = super().accept(asked)
            return self.hear(asked.message) if told == "retired" and isinstance(asked, Take) else told

    def node(self, me: int) -> Node:
        return self.Node(me)


class Asker(Client):
    """Asks a ring that is played. What `others` ask comes between a question and its answer."""

    def __init__(self, known: Known, node: int, ring: Ring, again: list[Question], rng: random.Random) -> None:
        super().__init__(known, node, 0, again, rng, 0.0)
        self.ring = ring
        self.others: list[Asker] = []

    def connect(self) -> None:
        self.session, self.left = Session(), self.rng.randint(1, 50)

    def exchange(self, line: str) -> str:
        self.let_others()
        answer = self.ring.answer(self.node, line)
        self.let_others()
        if self.is_killed:
            raise ConnectionError("the session ended")
        return answer

    def let_others(self) -> None:
        others, self.others = self.others, []
        while others and self.rng.random() < 0.3:
            other = self.rng.choice(others)
            kept, other.others = other.others, []
            other.ask(other.pick())
            other.others = kept
        self.others = others


def play(kind: type[Ring], seed: int, doors: int = 1, starts: int = 6, forgets: bool = False) -> Known:
    """What is known once a ring was asked by a client for each door of each node, and killed, so often. Where the book
    forgets, it does so while no question is open."""
    rng = random.Random(seed)
    known, ring = Known(NODES, doors == 1), kind(rng)
    for _ in range(starts):
        again = [known.questions(node, rng) for node in range(1, NODES + 1)]
        askers = [Asker(known, node + 1, ring, again[node][door::doors], rng) for node in range(NODES) for door in range(doors)]
        for asker in askers if doors > 1 else []:
            asker.others = [other for other in askers if other is not asker]
        for asker in askers:
            for question in asker.again:
                asker.ask(question)
        for step in range(300):
            asker = rng.choice(askers)
            asker.ask(asker.pick())
            for group in GROUPS if forgets and step % 50 == 0 else []:
                known.forget(group, known.settled(group))
        for asker in askers:
            # The last question of each is not answered.
            asker.is_killed = True
            with contextlib.suppress(Broken):
                asker.ask(asker.pick())
        known.process_ended()
        ring.start()
    return known


class PlayedTest(unittest.TestCase):
    def test_a_right_ring_has_no_fault(self) -> None:
        for seed in range(12):
            known = play(Ring, seed, doors=seed % 3 + 1)
            self.assertEqual(known.faults, [])
            self.assertGreater(len(known.retired), 20)

    def test_a_right_ring_has_no_fault_where_the_book_forgets(self) -> None:
        for doors in (1, 2, 3):
            known = play(Ring, doors, doors, forgets=True)
            self.assertEqual(known.faults, [])
            for group in GROUPS:
                self.assertGreater(known.forgotten[group], 0)
                for told in (known.asked, known.stood, known.never, known.acknowledged, known.told, known.told_before, known.retired):
                    self.assertGreaterEqual(min(term for _, (each, term) in told if each == group), known.forgotten[group])
                self.assertGreaterEqual(min(term for each, term in known.leaders if each == group), known.forgotten[group])

    def test_wrong_bodies_are_told(self) -> None:
        for kind in (ForgetsFloors, ForgetsFloorsAlone, NamesRetired, Keeps, TakesAnyFloor, TakesLessFloors, RefusesFloors,
                     RetiresTheFloorItself):
            with self.subTest(kind.__name__):
                for doors, forgets in ((1, False), (3, False), (3, True)):
                    self.assertTrue(play(kind, 1, doors, forgets=forgets).faults, (doors, forgets))

    def test_a_token_that_is_passed_on_below_a_floor_is_told(self) -> None:
        for kind, last in ((Ring, "none"), (PassesOn, "leader 2 5")):
            known, ring, answer = Known(NODES, True), kind(random.Random(0)), ""
            sessions = {node: Session() for node in range(1, NODES + 1)}
            for words in COURSE.split("\n")[1:-1]:
                if words.isdigit():
                    ring.hand_on(ring.nodes[int(words) - 1])
                    continue
                node, question = asked(words)
                before = known.sending(node, question, sessions[node])
                ring.boards = [ring.board(each) for each in ring.nodes]
                answer = ring.reply(node, question.line())
                known.answered(node, question, before, sessions[node], answer)
            self.assertEqual((answer, len(known.faults)), (last, int(kind is PassesOn)))


if __name__ == "__main__":
    unittest.main()
