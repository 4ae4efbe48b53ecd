"""What docs/SESSIONS.md says that a ring answers, over nodes as docs/PROTOCOL.md has them."""
import lines
from bounded import STANDS
from nodes import Candidate, Key, Node, Retire, Stand, Take

# So many bytes of a line without a line feed end a session, and so many lines.
CUT, LINES = 202, 10_000


def lines_in(text: bytes) -> tuple[list[bytes], bool]:
    """The lines of a session that are answered. Whether the last one is cut, which ends it."""
    found: list[bytes] = []
    while len(found) < LINES and (at := text.find(b"\n", 0, CUT)) >= 0:
        found.append(text[:at].removesuffix(b"\r"))
        text = text[at + 1:]
        if lines.judge(found[-1], lines.SESSION) == ["bye"]:
            return found, False
    return found, len(found) < LINES and len(text) >= CUT


class Ring:
    """A ring at rest. `pending`: the keys for which the node that is asked stood since, whose elections are on their way.
    `shown`: the floors and leaders that it had since, which its board may show yet."""

    def __init__(self, count: int) -> None:
        self.nodes = [Node(me) for me in range(1, count + 1)]
        self.pending: set[Key] = set()
        self.shown: list[tuple[dict[str, int], dict[Key, Candidate]]] = []

    def rest(self) -> None:
        """All messages are taken."""
        count = len(self.nodes)
        while ready := next((node for node in self.nodes if self.nodes[node.me % count].taken < len(node.sent)), None):
            to = self.nodes[ready.me % count]
            to.accept(Take(to.taken, ready.sent[to.taken][0]))
        self.pending.clear()
        self.shown.clear()

    def fault(self, node: Node, text: bytes, answer: bytes) -> str | None:
        """What is wrong with the answer of a session of this text. The ring then is as the answers say."""
        told = answer.decode("ascii").split("\n")
        asked, is_cut = lines_in(text)
        if told.pop() or len(told) != len(asked) + is_cut:
            return f"{len(told)} answers to {len(asked) + is_cut} lines, the last ones {told[-2:]}"
        for line, each in zip(asked, told):
            may_be = self.answers(node, line)
            if each not in may_be:
                return f"{each!r} to {line!r}, which may be {sorted(may_be)}"
            words = lines.words_of(line)
            if each == "stood":
                self.stand(node, Key(words[1].decode(), int(words[2])), int(words[3]))
            elif each == "retired":
                self.shown.append((dict(node.floors), dict(node.leaders)))
                node.accept(Retire(words[1].decode(), int(words[2])))
        return f"{told[-1]!r} to a line that is cut" if is_cut and told[-1] != lines.NO_LINE else None

    def stand(self, node: Node, key: Key, bid: int) -> None:
        node.accept(Stand(key, bid))
        self.pending.add(key)

    def answers(self, node: Node, line: bytes) -> set[str]:
        """What the node may answer."""
        words = lines.judge(line, lines.SESSION)
        if isinstance(words, str):
            return {words}
        if words[0] == "bye":
            return {"bye"}
        if words[0] == "latest":
            return self.latest(node, words[1])
        key = Key(words[1], int(words[2]))
        if words[0] == "stand":
            return self.stands(node, Stand(key, int(words[3])))
        if words[0] == "retire":
            return self.retires(node, Retire(*key))
        may_be = {f"leader {node.me} {node.stood[key]}"} if key in self.pending else set()
        return may_be | {who(floors, leaders, key) for floors, leaders in [*self.shown, (node.floors, node.leaders)]}

    def retires(self, node: Node, asked: Retire) -> set[str]:
        """A term that is on its way may be decided or not."""
        refusal = node.refusal(asked)
        is_near = refusal == "no 26 undecided" and any(key.group == asked.group and key.term >= asked.floor for key in self.pending)
        return {refusal or "retired"} | ({"retired"} if is_near else set())

    def latest(self, node: Node, group: str) -> set[str]:
        """That at rest, or a greater one that is on its way."""
        known = node.latest(group)
        own = {key: Candidate(node.stood[key], node.me) for key in self.pending
               if key.group == group and (known is None or key.term > known.term)}
        if known is not None:
            own[known] = node.leaders[known]
        told = {f"term {key.term} leader {leader.node} {leader.bid}" for key, leader in own.items()}
        return told if known is not None else told | {"none"}

    def stands(self, node: Node, asked: Stand) -> set[str]:
        """Its own Stand leads once its token came home: nobody else stands for its key."""
        refusal = node.refusal(asked)
        known = node.latest(asked.key.group)
        least = max(asked.key.term, known.term if known else 0)
        own = {f"no 5 stale {key.term}" for key in self.pending if key.group == asked.key.group and key.term > least}
        if refusal is not None and refusal.split(" ")[1] in ("3", "4", "23"):
            return {refusal}
        if refusal is None:
            refusal = "stood" if len(node.stood) < STANDS else "no 6 limit"
        return own | {refusal}


def who(floors: dict[str, int], leaders: dict[Key, Candidate], key: Key) -> str:
    """What a board with these tells of the key."""
    if key.term < floors.get(key.group, 0):
        return f"no 23 retired {floors[key.group]}"
    return f"leader {leaders[key].node} {leaders[key].bid}" if key in leaders else "none"
