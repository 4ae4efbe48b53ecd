"""Scripts, over bin/ringctl: each printed line is worked out by pictures/run.py, with faults and limits by the models beside this."""
import random

import bounded
import lines
import rows
from bounded import Bounded
from nodes import REPLIES, Input, Node, Stand, Take
from programs import Kind
from run import BATCH, Fault, Run

MOST = 1_000_000


class Judge(Run):
    """A run of which nothing is taken on trust."""

    def __init__(self, script: bytes, printed: bytes) -> None:
        self.printed = printed.decode("ascii").split("\n")
        if self.printed.pop():
            raise Fault("the last line has no line feed")
        self.at = self.tickets = 0
        self.nodes, self.open, self.rows, self.is_eager = [], [], [], True
        for number, line in enumerate(lines.lines_of(script), 1):
            self.mark = str(number)
            if lines.words_of(line) and not line.startswith(b"#"):
                self.obey(line)
        if self.at < len(self.printed):
            raise Fault(f"printed more: {self.printed[self.at]}")

    def obey(self, line: bytes) -> None:
        judged = lines.judge(line, lines.RUNNING if self.nodes else lines.RING, len(self.nodes))
        if isinstance(judged, list):
            judged = self.objection(judged) or judged
        if isinstance(judged, str):
            self.expect(judged)
            return
        command = "deliver_all" if judged[:2] == ["deliver", "all"] else judged[0]
        getattr(self, f"line_{command}")(judged)

    def objection(self, words: list[str]) -> str | None:
        """Why a line without a fault comes to no node."""
        if words[0] == "deliver" and words[1] != "all":
            return None if int(words[2]) < self.node(words[1]).released() else "no 21 unknown"
        if words[0] == "credit":
            return None if 1 <= int(words[2]) <= self.node(words[1]).durably_taken() else "no 21 unknown"
        if words[0] == "checkpoint" or (words[0], words[2:3]) == ("stop", ["checkpoint"]):
            node = self.node(words[1])
            return "no 7 full" if node.snapshot() > node.capacity else None
        return None

    def line_ring(self, words: list[str]) -> None:
        super().line_ring(words)
        self.nodes = [Bounded(node.me, int(words[3]) if words[3:] else 65_536) for node in self.nodes]

    def submit(self, node: Node, asked: Input) -> tuple[str, str]:
        refusal = node.refusal(asked)
        came = node.accept(asked) if refusal is None else refusal
        if self.is_eager:
            node.durable = len(node.inputs)
        return self.reply(node, refusal or REPLIES[type(asked)]), came

    def line_deliver_all(self, _words: list[str]) -> None:
        count = 0
        for node in self.ready():
            to = self.beside(node, 1)
            asked = Take(to.taken, node.sent[to.taken][0])
            if to.refusal(asked) is not None:
                break
            to.accept(asked)
            count += 1
            if self.is_eager:
                to.durable = len(to.inputs)
            if count == 10_000:
                break
        self.expect(f"delivered {count}")

    def line_checkpoint(self, words: list[str]) -> None:
        super().line_checkpoint(words)
        self.node(words[1]).rebase()

    def line_stop(self, words: list[str]) -> None:
        """The gate is opened at the third call, or at the fifth one of a checkpoint, and stays so where its byte is written or is 1."""
        node, is_checkpoint = self.node(words[1]), words[2] == "checkpoint"
        call, *tear = words[3:] if is_checkpoint else words[2:]
        is_kept = int(call) >= (5 if is_checkpoint else 3) and (tear == ["new"] or tear[0] == "fill" and int(tear[1]) == 1)
        held = node.durable
        if is_kept:
            held = len(node.inputs) if is_checkpoint else min(held + BATCH, len(node.inputs))
            if is_checkpoint:
                node.rebase()
                node.summarised = {held}
        self.end(node, "stop", {held: node.summarised})


class Scripts(Kind):
    """A case is a list of lines with their ends."""

    name = "scripts"

    def case(self, rng: random.Random) -> list[bytes]:
        nodes = rng.choice([2, 2, 3, 3, 4, 5, 16])
        # A node in memory of the greatest capacity takes 12 MiB.
        greatest = b" eager 1048576" if nodes <= 4 else b" lazy"
        first = b"ring %d%s" % (nodes, rng.choice([b"", b" lazy", b" lazy 4096", b" eager 4096", greatest, b" lazy 4097"]))
        case = [first + b"\n"] if rng.random() < 0.97 else []
        for _ in range(rng.choice([3, 10, 30, 60, 120])):
            case.append(line(rng, nodes) + rng.choice([b"\n"] * 12 + [b"\r\n", b"\r\r\n", b"", b" \n"]))
        kind = rng.random()
        at = rng.randint(0, len(case))
        if kind > 0.9:
            # A row of the gate, with lines between its own.
            between, case = case[1:1 + rng.randrange(9)], [*rng.choice(rows.scripts())]
            for each in between:
                case.insert(rng.randint(1, len(case)), each)
        if kind < 0.004:
            case[at:at] = limit(rng)
        elif kind < 0.06:
            # More than a small capacity holds.
            group = rng.choice([b"a", b"abcdefghijklmnop"])
            case[at:at] = [b"stand %d %s %d %d\n" % (rng.choice([1, 1, 1, nodes]), group, term, term % 3)
                           for term in range(1, rng.randint(90, 260))]
        elif kind < 0.09:
            # A node keeps its inputs in memory, so that many nodes of an age take more than a program may.
            case[at:at] = years(rng, nodes, 300 if kind < 0.064 and nodes <= 3 else 12, b"lazy" in first)
        elif kind < 0.15:
            case = seeded(rng)
        elif kind < 0.153:
            case += [b"#" * 10_000 + b"\n"] * 99 + [b"#" * (MOST - sum(map(len, case)) - 990_099 + rng.choice([-1, 0, 1, 2]))]
        return case

    def differs(self, case: list[bytes]) -> str | None:
        script = b"".join(case)
        ended = self.programs.run([self.programs.ringctl], script)
        if ended.fault:
            return ended.fault
        if len(script) > MOST:
            is_right = (ended.status, ended.out, ended.err) == (1, b"", b"ringctl: script too long\n")
            return None if is_right else f"a script of {len(script)} bytes: {ended}"
        if ended.status or ended.err:
            return f"{ended}"
        try:
            Judge(script, ended.out)
        except (Fault, UnicodeDecodeError) as fault:
            return f"{fault}"
        return None


GROUPS = [b"red", b"red", b"blue", b"a", b"red-2", b"abcdefghijklmnop"]
ODD = [b"0", b"00000000001", b"0000000001", b"1", b"17", b"16", b"999999999", b"1000000000", b"9999999999", b"10000000000", b"4294967297",
       b"-1", b"+1", b"1.", b"", b"red", b"Red", b"-red", b"r", b"abcdefghijklmnopq", b"all", b"fill", b"checkpoint", b"new", b"\xff", b"\t",
       b"lazy", b"#", b"256", b"18446744073709551617"]


def seeded(rng: random.Random) -> list[bytes]:
    """A row of the gate, in which lines are left out, repeated, put elsewhere or new."""
    case = list(rng.choice(rows.scripts()))
    for _ in range(rng.choice([0, 1, 2, 5])):
        taken = case.pop(rng.randrange(len(case))) if len(case) > 1 and rng.random() < 0.5 else rng.choice(case)
        at = rng.randint(0, len(case))
        case[at:at] = rng.choice([[], [taken], [taken], [taken, taken], [line(rng, 2) + b"\n"]])
    return case


def limit(rng: random.Random) -> list[bytes]:
    """More Stands than a node takes, where its capacity allows them, some of which it retires."""
    group, floor = rng.choice([b"a", b"abcdefghijklmnop"]), rng.randint(1, 1_040)
    case = [b"stand 1 %s %d %d\n" % (group, term, term % 3) for term in range(1, 1_030)]
    case += [b"deliver all\n", b"retire 1 %s %d\n" % (group, floor), rng.choice([b"checkpoint 1\n", b"crash 1\n", b"\n"])]
    return case + [b"stand 1 %s %d 1\n" % (group, term) for term in range(1_025, rng.choice([1_100, 2_060]))]


def years(rng: random.Random, nodes: int, count: int, is_lazy: bool) -> list[bytes]:
    """So many times some terms of a group, whose messages are taken and credited, and which are retired then."""
    group, term, kept = rng.choice([b"a", b"abcdefghijklmnop"]), 0, rng.choice([0, 0, 1, 5, 100])
    case: list[bytes] = []
    # What is not durable yet is not delivered.
    rounds = [b"flush %d\n" % each for each in range(1, nodes + 1)] * is_lazy + [b"deliver all\n"]
    rounds *= 2 * nodes if is_lazy and nodes <= 4 else 1
    for _ in range(count):
        node = rng.randint(1, nodes)
        for term in range(term + 1, term + 1 + rng.choice([1, 2, 5, 20])):
            case.append(b"stand %d %s %d %d\n" % (node, group, term, rng.randrange(3)))
        case += rounds
        for each in range(1, nodes + 1):
            case.append(b"credit %d %d\n" % (each, 2 * term))
            if rng.random() < 0.9:
                case.append(b"retire %d %s %d\n" % (each, group, max(1, term - kept)))
            if rng.random() < 0.5:
                case.append(b"checkpoint %d\n" % each)
            if rng.random() < 0.3:
                case.append(line(rng, nodes, max(0, term - 3)) + b"\n")
    return case


def line(rng: random.Random, nodes: int, behind: int = 0) -> bytes:
    """A line of a script: mostly a command, for one of the first terms behind this one, sometimes with a word or a byte changed."""
    node, group, term = rng.randint(1, nodes), rng.choice(GROUPS), behind + rng.randint(1, 4)
    tear = rng.choice([b"old", b"new", b"fill 1", b"fill 0", b"fill 165", b"fill 01"])
    words = rng.choice([
        b"stand %d %s %d %d" % (node, group, term, rng.randrange(6)), b"stand %d %s %d %d" % (node, group, term, rng.randrange(6)),
        b"who %d %s %d" % (node, group, term), b"latest %d %s" % (node, group), b"deliver %d %d" % (node, 2 * behind + rng.randrange(8)),
        b"deliver %d %d" % (node, rng.randrange(3)), b"credit %d %d" % (node, 2 * behind + rng.randrange(6)), b"deliver all", b"deliver all",
        b"flush %d" % node, b"flush %d" % node, b"crash %d" % node, b"checkpoint %d" % node, b"show %d" % node, b"audit",
        b"retire %d %s %d" % (node, group, term), b"retire %d %s %d" % (node, group, behind + rng.randint(1, 2)),
        b"stop %d %d %s" % (node, rng.randint(1, 4), tear), b"stop %d checkpoint %d %s" % (node, rng.randint(1, 6), tear),
    ]).split(b" ")
    kind = rng.random()
    if kind < 0.08:
        words[rng.randrange(len(words))] = rng.choice(ODD)
    elif kind < 0.1:
        words.insert(rng.randint(0, len(words)), rng.choice(ODD))
    elif kind < 0.12:
        words.pop()
    text = rng.choice([b" "] * 9 + [b"  "]).join(words)
    if kind > 0.97:
        at = rng.randint(0, len(text))
        text = text[:at] + rng.randbytes(1) + text[at + rng.randint(0, 1):]
    elif kind > 0.95:
        text += b" " * (rng.randint(198, 203) - len(text))
    elif kind > 0.94:
        text = rng.choice([b"", b" ", b"# stand 1 red 5 10", b" # no", b"hello", b"ring 3", b"audits", b"retires 1 red 5", b"#" * 300])
    return text.replace(b"\n", b"")
