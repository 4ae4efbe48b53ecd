"""The rows of a picture: a script's run, worked out by the protocol, and held against what ringctl printed for it."""
from collections.abc import Iterator
from typing import NamedTuple

from nodes import REPLIES, Acked, Input, Key, Message, Node, Retire, Stand, Take

# What a node may print for want of room or memory, which is not worked out here.
WANT = ("no 6 limit", "no 7 full")
# What it prints for a line that comes to no node.
REFUSED = ("no 1 name", "no 2 number", "no 21 unknown", "no 25 line", *WANT)
# A flush takes so many inputs.
BATCH = 64


class Fault(Exception):
    """ringctl did not print what the script comes to."""


class Row(NamedTuple):
    """What happens at a node, or on the way from it `to` another one. `sign` is how its place is marked: `o` a
    request, `*` a leader, `#` a flush, `X` a crash or a stop, `+` a checkpoint, or nothing."""
    mark: str
    node: int
    to: int | None
    sign: str
    text: str
    message: Message | None = None


class Ticket(NamedTuple):
    number: int
    node: Node
    rests: int
    reply: str


class Run:
    def __init__(self, script: str, printed: str) -> None:
        self.printed = printed.splitlines()
        self.at = 0
        # What room a node has is ringctl's to tell: at once, or when a sealed ticket opens.
        tickets = (line.partition(": ") for line in self.printed)
        self.want = {ticket: told for ticket, _, told in tickets if told in WANT}
        self.nodes: list[Node] = []
        self.is_eager = True
        self.tickets = 0
        self.open: list[Ticket] = []
        self.rows: list[Row] = []
        for number, line in enumerate(script.split("\n"), 1):
            self.mark = str(number)
            words = line.removesuffix("\r").split()
            if words and not line.startswith("#"):
                self.line(words)
        if self.at < len(self.printed):
            raise Fault(f"ringctl printed more: {self.printed[self.at]}")

    def next(self) -> str:
        if self.at == len(self.printed):
            raise Fault(f"line {self.mark}: ringctl printed nothing for it")
        self.at += 1
        return self.printed[self.at - 1]

    def expect(self, text: str) -> None:
        printed = self.next()
        if printed != text:
            raise Fault(f"line {self.mark}: ringctl printed `{printed}`, and not `{text}`")

    def node(self, word: str) -> Node:
        return self.nodes[int(word) - 1]

    def beside(self, node: Node, step: int) -> Node:
        return self.nodes[(node.me - 1 + step) % len(self.nodes)]

    def row(self, node: Node, sign: str, text: str, to: Node | None = None, message: Message | None = None) -> None:
        self.rows.append(Row(self.mark, node.me, to.me if to else None, sign, text, message))

    def line(self, words: list[str]) -> None:
        """One line of the script. What was refused before it came to a node is told at the first one."""
        printed = self.printed[self.at] if self.at < len(self.printed) else ""
        if printed in REFUSED:
            self.next()
            if self.nodes:
                is_node = len(words) > 1 and words[1].isdecimal() and 1 <= int(words[1]) <= len(self.nodes)
                self.row(self.node(words[1] if is_node else "1"), "o", f"{' '.join(words)}, {printed}")
            return
        command = "deliver_all" if words[:2] == ["deliver", "all"] else words[0]
        act = getattr(self, f"line_{command}", None)
        if act is None:
            raise Fault(f"line {self.mark}: {words[0]} is no command that a picture knows")
        act(words)

    def line_ring(self, words: list[str]) -> None:
        self.expect(f"ring {int(words[1])}")
        self.nodes = [Node(me) for me in range(1, int(words[1]) + 1)]
        self.is_eager = words[2:3] != ["lazy"]

    def line_stand(self, words: list[str]) -> None:
        node, asked = self.node(words[1]), Stand(Key(words[2], int(words[3])), int(words[4]))
        told, _ = self.submit(node, asked)
        self.row(node, "o", f"{self.tickets}: {' '.join(['stand', *words[2:]])}, {told}")

    def line_who(self, words: list[str]) -> None:
        node, key = self.node(words[1]), Key(words[2], int(words[3]))
        leader = node.leaders.get(key)
        told = self.reply(node, node.retired(key) or (f"leader {leader.node} {leader.bid}" if leader else "none"))
        self.row(node, "o", f"{self.tickets}: {' '.join(['who', *words[2:]])}, {told}")

    def line_retire(self, words: list[str]) -> None:
        node, asked = self.node(words[1]), Retire(words[2], int(words[3]))
        told, _ = self.submit(node, asked)
        self.row(node, "o", f"{self.tickets}: {' '.join(['retire', *words[2:]])}, {told}")

    def line_latest(self, words: list[str]) -> None:
        node = self.node(words[1])
        key = node.latest(words[2])
        leader = node.leaders[key] if key else None
        told = self.reply(node, f"term {key.term} leader {leader.node} {leader.bid}" if leader else "none")
        self.row(node, "o", f"{self.tickets}: latest {words[2]}, {told}")

    def line_deliver(self, words: list[str]) -> None:
        node, number = self.node(words[1]), int(words[2])
        if number >= node.released():
            raise Fault(f"line {self.mark}: ringctl delivers a message that was not released")
        message, to = node.sent[number][0], self.beside(node, 1)
        told, came = self.submit(to, Take(number, message))
        self.arrow(node, to, f"{self.tickets}: {number}", came if told == "taken" else told, message)

    def line_deliver_all(self, _words: list[str]) -> None:
        printed = self.next()
        line, count = self.mark, 0
        for node in self.ready():
            self.mark = f"{line}.{count + 1}"
            to = self.beside(node, 1)
            message = node.sent[to.taken][0]
            number = str(to.taken)
            if printed == f"delivered {count}":
                self.arrow(node, to, number, "refused", message)
                return
            came = to.accept(Take(to.taken, message))
            if self.is_eager:
                to.durable = len(to.inputs)
            self.arrow(node, to, number, came, message)
            count += 1
            if count == 10_000:
                break
        self.mark = line
        if printed != f"delivered {count}":
            raise Fault(f"line {line}: ringctl printed `{printed}`, and not `delivered {count}`")

    def ready(self) -> Iterator[Node]:
        """The lowest node whose successor expects a message that is released, again and again."""
        while ready := next((node for node in self.nodes if self.beside(node, 1).taken < node.released()), None):
            yield ready

    def line_credit(self, words: list[str]) -> None:
        node, number = self.node(words[1]), int(words[2])
        if not 1 <= number <= node.durably_taken():
            raise Fault(f"line {self.mark}: ringctl hands on a credit that was not released")
        to = self.beside(node, -1)
        told, _ = self.submit(to, Acked(number))
        self.row(node, "", f"{self.tickets}: credit {number}, {told}", to)

    def line_flush(self, words: list[str]) -> None:
        node = self.node(words[1])
        self.land(node, "#", "flushed", min(BATCH, len(node.inputs) - node.durable))

    def line_checkpoint(self, words: list[str]) -> None:
        node = self.node(words[1])
        self.land(node, "+", "checkpointed", len(node.inputs) - node.durable)
        node.summarised = {node.durable}

    def land(self, node: Node, sign: str, what: str, count: int) -> None:
        self.expect(f"{what} {count}")
        node.durable += count
        free = [ticket for ticket in self.open if ticket.node is node and ticket.rests <= node.durable]
        for ticket in free:
            self.expect(f"{ticket.number}: {ticket.reply}")
            self.open.remove(ticket)
        self.row(node, sign, "; ".join([f"{what} {count}", *(f"{ticket.number}: {ticket.reply}" for ticket in free)]))

    def line_crash(self, words: list[str]) -> None:
        node = self.node(words[1])
        self.end(node, "crash", {node.durable: node.summarised})

    def line_stop(self, words: list[str]) -> None:
        """Which of the two lists a stop leaves ringctl tells."""
        node = self.node(words[1])
        if words[2] == "checkpoint":
            count = len(node.inputs)
            may_hold = {node.durable: node.summarised, count: {count} | (node.summarised if node.durable == count else set())}
            self.end(node, f"stop at call {words[3]} of a checkpoint, {' '.join(words[4:])}", may_hold)
            return
        flown = min(node.durable + BATCH, len(node.inputs))
        self.end(node, f"stop at call {words[2]}, {' '.join(words[3:])}", {node.durable: node.summarised, flown: node.summarised})

    def end(self, node: Node, what: str, may_hold: dict[int, set[int]]) -> None:
        """It holds one of these counts of inputs, of which so many are summarised."""
        lost = [ticket for ticket in self.open if ticket.node is node]
        for ticket in lost:
            self.expect(f"{ticket.number}: lost")
            self.open.remove(ticket)
        printed = self.next()
        held = next((held for held in may_hold if printed == f"up {node.me} {held}"), None)
        if held is None:
            raise Fault(f"line {self.mark}: ringctl printed `{printed}`; held may be {list(may_hold)}")
        node.restart(held, may_hold[held])
        self.row(node, "X", "; ".join([what, *(f"{ticket.number}: lost" for ticket in lost), f"up with {held}"]))

    def line_show(self, words: list[str]) -> None:
        node = self.node(words[1])
        counts = f"inputs {len(node.inputs)} durable {node.durable} sent {len(node.sent)}"
        self.expect(f"node {node.me} {counts} taken {node.taken} credit {node.credit}")
        self.row(node, "o", f"{counts} taken {node.taken} credit {node.credit}")

    def line_audit(self, _words: list[str]) -> None:
        """Whether a node dropped inputs ringctl tells, where that was left open."""
        printed = self.next()
        for node in self.nodes:
            if any(node.dropped) and printed == f"no 27 dropped {node.me}":
                node.dropped = node.dropped - {0}
                self.row(node, "o", f"audit, {printed}")
                return
            if 0 not in node.dropped:
                raise Fault(f"line {self.mark}: ringctl printed `{printed}`, and not `no 27 dropped {node.me}`")
            node.dropped = {0}
        placed = sum(node.durable for node in self.nodes)
        if printed != f"audit ok {placed}":
            raise Fault(f"line {self.mark}: ringctl printed `{printed}`, and not `audit ok {placed}`")
        self.row(self.nodes[0], "o", printed)

    def submit(self, node: Node, asked: Input) -> tuple[str, str]:
        """The node is asked to accept an input: what ringctl told of it, and what came of it."""
        refusal = node.refusal(asked) or self.want.get(str(self.tickets + 1))
        came = node.accept(asked) if refusal is None else refusal
        if self.is_eager:
            node.durable = len(node.inputs)
        return self.reply(node, refusal or REPLIES[type(asked)]), came

    def reply(self, node: Node, reply: str) -> str:
        """A ticket is taken: what ringctl told of it, which is `sealed` while the reply rests on what waits."""
        self.tickets += 1
        told = reply if len(node.inputs) <= node.durable else "sealed"
        if told == "sealed":
            self.open.append(Ticket(self.tickets, node, len(node.inputs), reply))
        self.expect(f"{self.tickets}: {told}")
        return told

    def arrow(self, node: Node, to: Node, number: str, came: str, message: Message) -> None:
        self.row(node, "*" if came in ("leads", "known, passed on") else "", f"{number} MESSAGE, {came}", to, message)

    def labels(self) -> list[Row]:
        """The rows, with the messages in their texts: with their keys where there are several."""
        keys = {row.message.key for row in self.rows if row.message}

        def label(row: Row) -> Row:
            if row.message is None:
                return row
            key = f"{row.message.key.group} {row.message.key.term} " if len(keys) > 1 else ""
            return row._replace(text=row.text.replace("MESSAGE", f"{key}{row.message}", 1))

        return [label(row) for row in self.rows]
