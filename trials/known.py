"""What a ring told its clients, and what each further answer has to keep of it.

A key is a group and a term. What is told of a key stays true for ever, over kills too, and so is held against each
answer, earlier or later:

- A node that stands for a key (`stood`, or `no 3 already` with a bid that it was asked with) has that bid for ever, and
  answers each later Stand for it with `no 3 already` and this bid, as 23 once the key is retired there, or as 7 where no
  Stand finds room, which says nothing else of the key.
- A node that refuses a Stand for a key as 4, 5 or 6 does not stand for it, and but for 6, which a floor may end, never will.
- All that name a leader of a key name one. It is a candidate that was asked to stand, it is not one that was refused,
  and no candidate that stands for the key is greater: candidates are ordered by bid, then by node.
- Once a leader was named nobody stands anew for its key: its token has passed every other node.
- Once a node named a leader of a term, or refused a Stand as 5 for it, it takes no Stand of a lower term of the group.
- A node that named a leader names it ever after, or answers 23, and the terms of its `latest` never go down. What it
  refused as 5 its `latest` shows after the next start; before that it may lag. Where a node has several doors this is
  held against the answers of one session, and of later starts.
- A node that retired terms of a group (`retired`, or `no 23 retired F` with a floor F that it was asked for) has that
  floor or a greater one for ever: it retires none that is not greater, and knows a leader of a term that is as great.
  Below its floor it answers each Stand as 23, and each `who` as soon as it showed that floor there, or was started anew.
- A floor that a node refuses as 26 is above each term that it told of a leader for.

A book that is kept for long forgets what is below a floor of all nodes that each of them showed, as `forget` says. From
then on no node tells of a lower term of the group, at whichever door: its `latest` comes to that floor, and all else that
it is asked below it is answered 23.
"""
import copy
import random
import threading
from collections import Counter
from typing import NamedTuple

GROUPS = ["a", "red", "blue-2", "abcdefghijklmnop"]
# Bids are below this, so that equal ones come often.
BIDS = 12
# How many Stands of a node use a folder up, but for retired ones. A node takes 1,024.
MANY = 700
# Of what a node retired it is asked so much again.
RETIRED = 40

Key = tuple[str, int]
# A node and a group.
Place = tuple[int, str]


class Question(NamedTuple):
    """A line of a session: `stand` with a term and a bid, `who` with a term, `retire` with a floor, `latest`."""
    word: str
    group: str
    term: int = 0
    bid: int = 0

    def line(self) -> str:
        words = {"stand": [self.term, self.bid], "who": [self.term], "retire": [self.term], "latest": []}[self.word]
        return " ".join([self.word, self.group, *map(str, words)])

    def is_below(self, floor: int) -> bool:
        """Whether a node with this floor answers 23: the term is below it, or a new floor is not above it."""
        return self.word != "latest" and self.term < floor + (self.word == "retire")


class Before(NamedTuple):
    """What was known when a question was sent: whether the node stood for its key; whether a leader was named for it,
    anywhere or such that this node has to name it; the greatest term of its group for which the node told of a leader,
    and that which its `latest` has to reach; and the floor below which it has to answer 23."""
    has_stood: bool
    is_led: bool
    is_told: bool
    above: int
    reach: int
    floor: int


class Session:
    """What one session was told: the keys with a leader, the greatest such term of each group, and the group's floor."""

    def __init__(self) -> None:
        self.told: set[Key] = set()
        self.latest: dict[str, int] = {}
        self.floors: dict[str, int] = {}


class Known:
    """What was told by a ring of so many nodes since its folder was made. `is_single`: each node has one door; `retires`:
    it is asked to retire terms too, which an earlier ringd does not know."""

    def __init__(self, nodes: int, is_single: bool) -> None:
        self.nodes, self.is_single, self.retires = nodes, is_single, True
        self.lock = threading.RLock()
        self.starts = 1
        self.answers = self.unanswered = 0
        self.faults: list[str] = []
        # By node and key: how often each bid was asked; the bid that stands; the refusal for which none does; whether
        # it was answered `stood`. And the Stands and floors that were not answered. What is kept as a text tells by
        # which answer it came to be known.
        self.asked: dict[tuple[int, Key], Counter[int]] = {}
        self.stood: dict[tuple[int, Key], tuple[int, str]] = {}
        self.never: dict[tuple[int, Key], str] = {}
        self.acknowledged: set[tuple[int, Key]] = set()
        self.open: set[tuple[int, Question]] = set()
        # By key: the leader, as a bid and a node. By group: the greatest term with a leader.
        self.leaders: dict[Key, tuple[int, int, str]] = {}
        self.greatest: dict[str, int] = {}
        # What each node told, in this start and before it. `stale` is of refusals as 5 and of floors, in any start.
        self.told: set[tuple[int, Key]] = set()
        self.told_before: set[tuple[int, Key]] = set()
        self.latest: dict[Place, int] = {}
        self.latest_before: dict[Place, int] = {}
        self.stale: dict[Place, int] = {}
        # By node and group: how often each floor was asked for; those that were answered `retired`; the greatest one
        # that was told; that which a `who` has shown in this start, and that which was told before it. By group: the
        # greatest term that was stood for.
        self.floors_asked: dict[Place, Counter[int]] = {}
        self.retired: dict[tuple[int, Key], str] = {}
        self.floors: dict[Place, tuple[int, str]] = {}
        self.shown: dict[Place, int] = {}
        self.floors_before: dict[Place, int] = {}
        self.highest: dict[str, int] = {}
        # By group: the floor below which all is forgotten.
        self.forgotten: dict[str, int] = {}

    def branch(self) -> "Known":
        """What is known, for one of several ways in which a ring may go on."""
        own = copy.copy(self)
        own.lock = threading.RLock()
        for name, value in vars(self).items():
            if name != "lock":
                setattr(own, name, copy.deepcopy(value))
        return own

    def fault(self, text: str) -> None:
        with self.lock:
            self.faults.append(text)

    def process_ended(self) -> None:
        """ringd was killed, and no question is open."""
        self.starts += 1
        self.told_before |= self.told
        for latest in (self.latest, self.stale):
            for place, term in latest.items():
                self.latest_before[place] = max(term, self.latest_before.get(place, 0))
        self.floors_before = {place: floor for place, (floor, _) in self.floors.items()}

    def is_retired(self, node: int, key: Key) -> bool:
        """Whether the node told of a floor above it."""
        floor, _ = self.floors.get((node, key[0]), (0, ""))
        return key[1] < floor

    def is_used_up(self, many: int = MANY) -> bool:
        """Whether a node made so many Stands that it did not retire."""
        counts = Counter(node for node, key in self.stood if not self.is_retired(node, key))
        return any(count >= many for count in counts.values())

    def settled(self, group: str) -> int:
        """The floor of the group that each node showed: by a `who`, or as it was started anew behind telling of it."""
        places = [(node, group) for node in range(1, self.nodes + 1)]
        return min(max(self.shown.get(place, 0), self.floors_before.get(place, 0)) for place in places)

    def forget(self, group: str, floor: int) -> int:
        """Drops what is known of the group's terms below a floor, which was settled before the first question was sent
        that has no answer yet. How many of these terms had a leader."""
        def is_gone(key: Key) -> bool:
            return key[0] == group and key[1] < floor

        with self.lock:
            self.forgotten[group] = max(floor, self.forgotten.get(group, 0))
            for of_nodes in (self.asked, self.stood, self.never, self.retired):
                for entry in [entry for entry in of_nodes if is_gone(entry[1])]:
                    del of_nodes[entry]
            for told in (self.acknowledged, self.told, self.told_before):
                told -= {entry for entry in told if is_gone(entry[1])}
            self.open = {(node, each) for node, each in self.open if each.group != group or not each.is_below(floor)}
            for node in range(1, self.nodes + 1):
                asked = self.floors_asked.get((node, group), Counter())
                for less in [less for less in asked if less < floor]:
                    del asked[less]
            leaders = [key for key in self.leaders if is_gone(key)]
            for key in leaders:
                del self.leaders[key]
            return len(leaders)

    def questions(self, node: int, rng: random.Random) -> list[Question]:
        """Asks the node again what is known of it: Stands that it has, with another bid; some that it refused; what it
        did not answer, just so; all leaders; the latest ones; its floors. Of what it retired it is asked some."""
        again = [Question("stand", *key, (bid + 1) % BIDS) for (at, key), (bid, _) in self.stood.items() if at == node]
        again += [Question("who", *key) for key in self.leaders]
        gone = [each for each in again if self.is_retired(node, (each.group, each.term))]
        if gone:
            again = [each for each in again if not self.is_retired(node, (each.group, each.term))]
            again += rng.sample(gone, min(RETIRED, len(gone)))
        never = [key for at, key in self.never if at == node]
        again += [Question("stand", *key, rng.randrange(BIDS)) for key in rng.sample(never, min(40, len(never)))]
        again += [question for at, question in self.open if at == node]
        again += [Question("latest", group) for group in GROUPS]
        again += [Question("retire", group, floor) for (at, group), (floor, _) in self.floors.items() if at == node]
        rng.shuffle(again)
        return again

    def sending(self, node: int, question: Question, session: Session) -> Before:
        """Is called before a question is sent."""
        key, place = (question.group, question.term), (node, question.group)
        with self.lock:
            if question.word == "stand":
                self.asked.setdefault((node, key), Counter())[question.bid] += 1
                self.highest[question.group] = max(question.term, self.highest.get(question.group, 0))
            if question.word == "retire":
                self.floors_asked.setdefault(place, Counter())[question.term] += 1
            reach = max(self.latest_before.get(place, 0), session.latest.get(question.group, 0),
                        self.forgotten.get(question.group, 0))
            is_told = (node, key) in self.told_before or key in session.told
            if self.is_single:
                reach = max(reach, self.latest.get(place, 0))
                is_told = is_told or (node, key) in self.told
            above = max(reach, self.latest.get(place, 0), self.stale.get(place, 0))
            floor = self.floor_of(place, question.word, session)
            return Before((node, key) in self.stood, key in self.leaders, is_told, above, reach, floor)

    def floor_of(self, place: Place, word: str, session: Session) -> int:
        """The floor that the node has to heed where it answers such a line: a `who` may lag, as `latest` may."""
        if word != "who":
            return self.floors.get(place, (0, ""))[0]
        floor = max(self.floors_before.get(place, 0), session.floors.get(place[1], 0), self.forgotten.get(place[1], 0))
        return max(floor, self.shown.get(place, 0)) if self.is_single else floor

    def no_answer(self, node: int, question: Question) -> None:
        """Is called where the session broke off behind a question."""
        with self.lock:
            if question.word in ("stand", "retire"):
                self.unanswered += question.word == "stand"
                self.open.add((node, question))

    def answered(self, node: int, question: Question, before: Before, session: Session, answer: str) -> None:
        """Holds an answer against what is known, and keeps what it tells. An answer is one fault at most."""
        with self.lock:
            self.answers += 1
            count = len(self.faults)
            told = f"{answer!r} of node {node} to {question.line()!r} at start {self.starts}"
            words = answer.split(" ")
            if question.word in ("stand", "retire"):
                self.open = {entry for entry in self.open if entry[0] != node or entry[1][:3] != question[:3]}
            try:
                if words[:3] == ["no", "23", "retired"] and len(words) == 4:
                    self.on_floor(node, question, before, session, int(words[3]), told)
                # A full node refuses each Stand before it looks whose.
                elif question.is_below(before.floor) and (question.word, answer) != ("stand", "no 7 full"):
                    self.fault(f"{told}, and it told of a floor: {self.floors[node, question.group][1]}")
                elif question.word == "stand":
                    self.on_stand(node, question, before, words, told)
                elif question.word == "retire":
                    self.on_retire(node, question, before, words, told)
                elif question.word == "who":
                    self.on_who(node, question, before, session, words, told)
                else:
                    self.on_latest(node, question, before, session, words, told)
            except (ValueError, IndexError):
                self.fault(f"{told} is no answer to it")
            del self.faults[count + 1:]

    def on_stand(self, node: int, question: Question, before: Before, words: list[str], told: str) -> None:
        key = (question.group, question.term)
        if words == ["stood"]:
            if before.is_led:
                self.fault(f"{told}, and before it was asked its leader was known: {self.leaders[key][2]}")
            if before.above > question.term:
                self.fault(f"{told}, and before it was asked the node told of a leader for term {before.above}")
            if before.has_stood or (node, key) in self.acknowledged:
                self.fault(f"{told}, and the node stood for it: {self.stood[node, key][1]}")
            self.acknowledged.add((node, key))
            self.stands(node, key, question.bid, told)
        elif words[:3] == ["no", "3", "already"] and len(words) == 4:
            bid = int(words[3])
            if self.asked[node, key][bid] <= (bid == question.bid):
                self.fault(f"{told}, and no other question had that bid")
            self.stands(node, key, bid, told)
        elif words in (["no", "4", "late"], ["no", "6", "limit"], ["no", "7", "full"]) \
                or words[:3] == ["no", "5", "stale"] and len(words) == 4:
            self.refuses(node, question, before, words, told)
        else:
            self.fault(f"{told} is no answer that is looked for")

    def refuses(self, node: int, question: Question, before: Before, words: list[str], told: str) -> None:
        """The node does not stand, and never will, unless it has room again or retires what it has."""
        key = (question.group, question.term)
        if (node, key) in self.stood and words[1] != "7":
            self.fault(f"{told}, and the node stands: {self.stood[node, key][1]}")
        if words[1] == "4" and not any((other, key) in self.asked for other in self.others(node)):
            self.fault(f"{told}, and no other node was asked to stand")
        if words[1] == "5":
            term = int(words[3])
            if term <= question.term or not self.was_asked((question.group, term)):
                self.fault(f"{told}, and nobody was asked to stand for a greater term {term}")
            if term < before.above:
                self.fault(f"{told}, and before it was asked the node told of a leader for term {before.above}")
            place = (node, question.group)
            self.stale[place] = max(term, self.stale.get(place, 0))
        if words[1] == "6" and before.above > question.term:
            self.fault(f"{told}, and before it was asked the node told of a leader for term {before.above}")
        if words[1] == "6" and sum(at == node for at, _ in self.asked) < 1024:
            self.fault(f"{told}, and it was not asked to stand for so many keys")
        if words[1] in "45":
            self.never.setdefault((node, key), told)

    def stands(self, node: int, key: Key, bid: int, told: str) -> None:
        """The node stands for the key with this bid."""
        known, why = self.stood.setdefault((node, key), (bid, told))
        if known != bid:
            self.fault(f"{told}, and the node stands with bid {known}: {why}")
        if (node, key) in self.never:
            self.fault(f"{told}, and the node does not stand: {self.never[node, key]}")
        if key in self.leaders and (bid, node) > self.leaders[key][:2]:
            self.fault(f"{told} is greater than the leader: {self.leaders[key][2]}")

    def on_retire(self, node: int, question: Question, before: Before, words: list[str], told: str) -> None:
        """An answer to a floor that is above those that the node told."""
        key = (question.group, question.term)
        if words == ["retired"]:
            if key[1] > self.highest.get(key[0], 0):
                self.fault(f"{told}, and nobody was asked to stand for a term as great")
            if (node, key) in self.retired:
                self.fault(f"{told}, which it answered before: {self.retired[node, key]}")
            self.retired[node, key] = told
            self.has_floor(node, *key, told)
        elif words == ["no", "26", "undecided"]:
            if key[1] <= before.above:
                self.fault(f"{told}, and before it was asked the node told of a leader for term {before.above}")
        elif words != ["no", "7", "full"]:
            self.fault(f"{told} is no answer that is looked for")

    def on_floor(self, node: int, question: Question, before: Before, session: Session, floor: int, told: str) -> None:
        """The node refuses by its floor."""
        place, is_asked = (node, question.group), question.word == "retire" and question.term == floor
        if not question.is_below(floor):
            self.fault(f"{told}, and that floor does not say so")
        if floor < before.floor:
            self.fault(f"{told}, and it told of a greater one: {self.floors[place][1]}")
        if self.floors_asked.get(place, Counter())[floor] <= is_asked:
            self.fault(f"{told}, and no other question asked for that floor")
        if floor > self.highest.get(question.group, 0):
            self.fault(f"{told}, and nobody was asked to stand for a term as great")
        self.has_floor(*place, floor, told)
        if question.word == "who":
            session.floors[question.group] = max(floor, session.floors.get(question.group, 0))
            session.latest[question.group] = max(floor, session.latest.get(question.group, 0))
            self.shown[place] = max(floor, self.shown.get(place, 0))
            self.latest[place] = max(floor, self.latest.get(place, 0))

    def has_floor(self, node: int, group: str, floor: int, told: str) -> None:
        """The node has this floor at least, and so it knows a leader of a term that is as great."""
        place = (node, group)
        if floor > self.floors.get(place, (0, ""))[0]:
            self.floors[place] = (floor, told)
        self.stale[place] = max(floor, self.stale.get(place, 0))

    def on_who(self, node: int, question: Question, before: Before, session: Session, words: list[str],
               told: str) -> None:
        if words[0] == "leader" and len(words) == 3:
            self.leads(node, (question.group, question.term), int(words[1]), int(words[2]), session, told)
        elif words != ["none"]:
            self.fault(f"{told} is no answer that is looked for")
        elif before.is_told:
            self.fault(f"{told}, and it named a leader: {self.leaders[question.group, question.term][2]}")

    def on_latest(self, node: int, question: Question, before: Before, session: Session, words: list[str],
                  told: str) -> None:
        is_named = words[0] == "term" and words[2] == "leader" and len(words) == 5
        term = int(words[1]) if is_named else 0
        if not is_named and words != ["none"]:
            self.fault(f"{told} is no answer that is looked for")
        if term < before.reach:
            self.fault(f"{told}, and it told of a leader for term {before.reach}")
        if is_named:
            self.leads(node, (question.group, term), int(words[3]), int(words[4]), session, told)

    def leads(self, node: int, key: Key, leader: int, bid: int, session: Session, told: str) -> None:
        """The node names this leader of the key."""
        known = self.leaders.setdefault(key, (bid, leader, told))
        if known[:2] != (bid, leader):
            self.fault(f"{told}, and another leader was named: {known[2]}")
        if bid not in self.asked.get((leader, key), ()):
            self.fault(f"{told}, and that candidate was not asked to stand")
        self.stands(leader, key, bid, told)
        for other in self.others(leader):
            stood = self.stood.get((other, key))
            if stood is not None and (stood[0], other) > (bid, leader):
                self.fault(f"{told}, and a greater candidate stands: {stood[1]}")
        group, term = key
        self.greatest[group] = max(term, self.greatest.get(group, 0))
        self.told.add((node, key))
        session.told.add(key)
        self.latest[node, group] = max(term, self.latest.get((node, group), 0))
        session.latest[group] = max(term, session.latest.get(group, 0))

    def others(self, node: int) -> list[int]:
        return [other for other in range(1, self.nodes + 1) if other != node]

    def was_asked(self, key: Key) -> bool:
        return any((node, key) in self.asked for node in range(1, self.nodes + 1))
