#!/usr/bin/env python3
"""Measures how large the tree is, and how easy to keep, and prints a Markdown table of it, whole and by crate.

    docs/house.py [--files] [--names] [ROOT]

ROOT is the repository, by default the one that this file stands in. Nothing is changed, proved or run, and nothing is judged: the gate does
not run it. Looked at are the files that git tracks. The columns are

- code: lines of .rt that are neither empty nor a comment, and say something to the compiler; contracts: those that speak to the
  prover alone, which are clauses and what begins with `ghost` or `#[tactic`;
- definitions, proofs: lines of .antt in specs/ and in proofs/. Proofs are told, and nobody has to make them shorter: they are a small part
  of what a check takes, and no reader has to believe them;
- seconds: what the crate's proof, tests and edits cost, by the table of docs/DEVELOPING.md; nothing where it has no row;
- shared names: names of public definitions in specs/ that another crate gives to a definition too; on the last row how many such names
  there are;
- ledger lists: parameter lists that name the ledgers of a hub;
- use: the share of import lines among the lines of definitions and proofs;
- 8 parameters, 40 lines: functions with eight parameters or more, and with bodies of more than forty lines;
- bare: body lines of functions without an `ensures`;
- clauses, most, 200: clauses of all functions, of the one that has the most, and those that are longer than 200 characters;
- uncited: definitions and lemmas, but for those in the proof of one function, that nothing else names.

Crates of tests and of rows have the first five columns alone; the row before the last has the sums without them.

Below the table stands how many lines of definitions a reader has to believe behind a promise: those of all modules of specs/ that the files
with its contracts import, and that these import; with `--files`, which modules these are. Modules named Props are left out, since they
prove that a fact has one proof at most, and define nothing. README's headline is stated twice: by `laws::capacity` for the room that this
service has, which is what README says, and by `laws` for any rule of room, which takes fewer definitions. laws/worked.rt is not counted:
it shows that there are such schedules.

Then stands how many names mean two things: names of public definitions that stand in several crates, and those that stand in several of
the modules behind the headline. `--names` lists them, with the crates and the modules."""

import pathlib
import re
import subprocess
import sys
from collections import Counter, defaultdict
from dataclasses import dataclass, fields
from typing import Iterable

sys.path[:0] = [str(pathlib.Path(__file__).resolve().parent.parent / "bench")]
import lanes

MOST_PARAMETERS = 7
MOST_LINES = 40
MOST_LENGTH = 200
ASIDE = re.compile(r"_tests$|rows$")
WORD = re.compile(r"[\w'-]+")
DECLARED = re.compile(r"(?:(?:unfoldable|abbrev|pub|data|record)\s+)*([\w'-]+)\b")
IMPORTED = re.compile(r"Rattle\.(\w+)\.specs\.([\w.]+)")
FUNCTION = re.compile(r"\s*(?:pub(?:\([^)]*\))?\s+)?(?:const\s+)?(?:unsafe\s+)?fn\s+\w+")
CLAUSE = re.compile(r"\s+(?:ensures|requires) ")
LEDGERS = re.compile(r"<[^<>]*\b\w+: Whole\b")
GHOST = re.compile(r"\s*(?:(?:pub )?ghost\b|#!?\[tactic\b)|\s+(?:ensures|requires)\b")
PUBLIC = re.compile(r"(\s*)((?:(?:unfoldable|abbrev|pub|data|record)\s+)+)(\S+)")
# The files that state the headline for any rule of room, and for that of the service; and those of what else README calls the headline.
ANY_ROOM, ITS_ROOM = "ring_world/src/laws.rt", "ring_world/src/laws/capacity.rt"
BESIDE = [
    "history_laws/src/lib.rt",
    "node_store/src/node.rt",
    "commit_hub/src/hub.rt",
    "ring_service/src/flusher.rt",
    "ring_service/src/laws.rt",
]
HEADLINE = "all that README calls the headline"
# Behind each promise, the files that state it.
PROMISES = {
    "the headline of README (`laws::capacity`)": [ITS_ROOM],
    "the same for any rule of room (`laws`)": [ANY_ROOM],
    "both, and World": [ANY_ROOM, ITS_ROOM, "ring_world/src/world.rt"],
    "`run`": ["script_run/src/runs.rt"],
    HEADLINE: [ANY_ROOM, ITS_ROOM, *BESIDE],
    "the same for any rule of room": [ANY_ROOM, *BESIDE],
}
HEADS = ["crate", "code", "contracts", "definitions", "proofs", "seconds", "shared names", "ledger lists", "use"]
HEADS += ["8 parameters", "40 lines", "bare", "clauses", "most", "200", "uncited"]


def row(cells: Iterable[object]) -> str:
    return "| " + " | ".join(str(it) for it in cells) + " |"


@dataclass
class House:
    """What is counted of a crate, or of all."""

    code: int = 0
    contracts: int = 0
    definitions: int = 0
    proofs: int = 0
    seconds: float = 0
    shared: int = 0
    ledger_lists: int = 0
    logic_kept: int = 0
    use: int = 0
    wide: int = 0
    long: int = 0
    bare: int = 0
    clauses: int = 0
    most: int = 0
    long_clauses: int = 0
    uncited: int = 0

    def add(self, other: "House") -> None:
        most = max(self.most, other.most)
        for it in fields(self):
            setattr(self, it.name, getattr(self, it.name) + getattr(other, it.name))
        self.most = most

    def row(self, name: str, is_aside: bool) -> str:
        seconds = f"{self.seconds:.0f}" if self.seconds else ""
        cells = [name, self.code, self.contracts, self.definitions, self.proofs, seconds]
        if not is_aside:
            share = f"{100 * self.use / self.logic_kept:.1f} %" if self.logic_kept else ""
            cells += [self.shared, self.ledger_lists, share, self.wide, self.long, self.bare]
            cells += [self.clauses, self.most, self.long_clauses, self.uncited]
        return row([*cells, *[""] * (len(HEADS) - len(cells))])


@dataclass
class Function:
    """What is counted of a function: its parameters, the lines of its body, and the lengths of its clauses, by their kind."""

    parameters: int
    lines: int
    ensures: list[int]
    requires: list[int]


def functions(text: str) -> list[Function]:
    """What is counted of each function."""
    found = []
    lines = text.splitlines()
    for at, line in enumerate(lines):
        if not FUNCTION.match(line):
            continue
        indent = len(line) - len(line.lstrip())
        ends = (it for it in range(at + 1, len(lines)) if lines[it].startswith((" " * indent + "}", " " * indent + "{}")))
        end = at if line.rstrip().endswith("{}") or line.rstrip().endswith(";") else next(ends, at)
        begin = at if line.rstrip().endswith("{") else next((it for it in range(at, end) if lines[it] == " " * indent + "{"), None)
        if begin is None:
            begin = next((it for it in range(at, end) if re.match(r"\) .*\{$|\)? ?\{$", lines[it].strip())), end)
        clauses = [it for it in lines[at : begin + 1] if CLAUSE.match(it)]
        kinds = ([len(it.strip()) for it in clauses if it.split()[0] == kind] for kind in ("ensures", "requires"))
        found.append(Function(parameters(" ".join(lines[at : end + 1])), max(0, end - begin - 1), *kinds))
    return found


def parameters(text: str) -> int:
    """How many parameters stand between the parentheses behind the name, `self` among them."""
    behind = text[re.search(r"\bfn\s+\w+", text).end() :]
    depth = angle = count = 0
    is_empty = True
    for before, it in zip(" " + behind, behind):
        if it == "<" and not depth:
            angle += 1
        elif it == ">" and not depth and before != "-":
            angle -= 1
        elif angle:
            continue
        elif it in "([<{":
            depth += 1
        elif it in ")]}" or (it == ">" and before != "-"):
            depth -= 1
            if not depth:
                return count + (not is_empty)
        elif it == "," and depth == 1:
            count, is_empty = count + 1, True
        elif depth and not it.isspace():
            is_empty = False
    return count


def code_lines(text: str) -> tuple[int, int]:
    """How many lines speak to the compiler, and how many to the prover alone. A clause goes on until its brackets are closed."""
    code = contracts = depth = 0
    for line in text.splitlines():
        bare = line.strip()
        if not bare or bare.startswith("//"):
            continue
        if depth > 0 or GHOST.match(line):
            contracts += 1
            depth = max(0, depth + sum(bare.count(it) for it in "({[") - sum(bare.count(it) for it in ")}]"))
        else:
            code += 1
    return code, contracts


def public(text: str) -> set[str]:
    """The names of the public definitions of a module: of its own, and of what it declares over parameters; not those of fields."""
    found = set()
    for line in text.splitlines():
        it = PUBLIC.match(line)
        kinds = it[2].split() if it else []
        if it and "pub" in kinds and (not it[1] or len(kinds) > 1) and it[3] not in ("use", "mod", "module"):
            found.add(it[3])
    return found


def declarations(text: str) -> dict[str, Counter]:
    """Each name that a file of definitions or lemmas declares, with the words of its declaration, which ends at an empty line."""
    found: dict[str, Counter] = defaultdict(Counter)
    name = None
    for line in text.splitlines():
        name = name if line.strip() else None
        it = DECLARED.match(line)
        if it and not line.startswith(("use ", "--", "module ", "mod ", "pub mod ")):
            is_head = re.search(r"\s:\s|\s:$", line) or line.startswith(("data", "record", "pub data", "pub record"))
            name = it[1] if is_head else name
        if name:
            found[name].update(WORD.findall(line))
    return found


class Tree:
    """The files of the crates that git tracks, with their texts."""

    def __init__(self, root: pathlib.Path) -> None:
        self.root = root
        words = ["git", "-C", str(root), "ls-files", "-z", "crates/*.rt", "crates/*.antt"]
        paths = subprocess.run(words, check=True, capture_output=True, text=True).stdout.split("\0")
        self.texts = {pathlib.PurePosixPath(it): (root / it).read_text() for it in paths if it}
        self.cited = Counter(word for text in self.texts.values() for word in WORD.findall(text))

    def house(self, path: pathlib.PurePosixPath) -> House:
        """What is counted of one file."""
        text = self.texts[path]
        is_aside = bool(ASIDE.search(path.parts[1]))
        if path.suffix == ".rt":
            told = [] if is_aside else functions(text)
            code, contracts = code_lines(text)
            return House(
                code=code,
                contracts=contracts,
                ledger_lists=len(LEDGERS.findall(text)),
                wide=sum(it.parameters > MOST_PARAMETERS for it in told),
                long=sum(it.lines > MOST_LINES for it in told),
                bare=sum(it.lines for it in told if not it.ensures),
                clauses=sum(len(it.ensures) + len(it.requires) for it in told),
                most=max((len(it.ensures) + len(it.requires) for it in told), default=0),
                long_clauses=sum(length > MOST_LENGTH for it in told for length in it.ensures + it.requires),
            )
        count = len(text.splitlines())
        is_proof = path.parts[2] == "proofs"
        logic = House(proofs=count) if is_proof else House(definitions=count)
        if is_aside:
            return logic
        use = sum(line.startswith("use ") for line in text.splitlines())
        is_topic = not is_proof or len(path.parts) == 4
        named = declarations(text) if is_topic and path.name != "Lib.antt" else {}
        logic.add(House(logic_kept=count, use=use, uncited=sum(own[name] >= self.cited[name] for name, own in named.items())))
        return logic

    def modules(self) -> list[pathlib.PurePosixPath]:
        """The modules of definitions, but for those of crates of tests and of rows, and those that define nothing."""
        own = (it for it in self.texts if it.suffix == ".antt" and it.parts[2] == "specs" and not ASIDE.search(it.parts[1]))
        return [it for it in own if it.name not in ("Props.antt", "Lib.antt")]

    def places(self, modules: Iterable[pathlib.PurePosixPath]) -> dict[str, list[pathlib.PurePosixPath]]:
        """For each public definition in these modules those that it stands in."""
        found: dict[str, list[pathlib.PurePosixPath]] = defaultdict(list)
        for path in sorted(modules):
            for name in public(self.texts[path]):
                found[name].append(path)
        return found

    def lines(self, paths: set[pathlib.PurePosixPath]) -> int:
        """How many lines these files have."""
        return sum(len(self.texts[it].splitlines()) for it in paths)

    def imported(self, files: list[str]) -> set[pathlib.PurePosixPath]:
        """All modules of definitions that these files import, and that these import."""
        seen: set[pathlib.PurePosixPath] = set()
        left = [pathlib.PurePosixPath("crates") / it for it in files]
        while left:
            for crate, name in IMPORTED.findall(self.texts[left.pop()]):
                parts = name.split(".")
                paths = (pathlib.PurePosixPath("crates", crate, "specs", *parts[:it]).with_suffix(".antt") for it in range(len(parts), 0, -1))
                module = next((it for it in paths if it in self.texts), None)
                if module and module not in seen and module.name != "Props.antt":
                    seen.add(module)
                    left.append(module)
        return seen


def named(path: pathlib.PurePosixPath) -> str:
    """A module as one names it: CRATE, and behind it its path in specs/."""
    return ".".join([path.parts[1], *path.with_suffix("").parts[3:]])


def main() -> int:
    options = {it for it in sys.argv[1:] if it.startswith("--")}
    words = [it for it in sys.argv[1:] if it not in options]
    if options - {"--files", "--names"} or len(words) > 1:
        print(__doc__, file=sys.stderr)
        return 2
    root = pathlib.Path(words[0] if words else pathlib.Path(__file__).parent.parent).resolve()
    tree = Tree(root)
    crates: dict[str, House] = defaultdict(House)
    for path in tree.texts:
        crates[path.parts[1]].add(tree.house(path))
    try:
        spent = lanes.costs((root / "docs" / "DEVELOPING.md").read_text())
    except (OSError, lanes.Fault) as fault:
        spent = {}
        print(f"house.py: no seconds are told: docs/DEVELOPING.md: {fault}", file=sys.stderr)
    for name in crates.keys() & spent.keys():
        crates[name].seconds = sum(spent[name])
    everywhere = tree.places(tree.modules())
    owners = {name: sorted({it.parts[1] for it in paths}) for name, paths in everywhere.items()}
    shared = {name: them for name, them in sorted(owners.items()) if len(them) > 1}
    for them in shared.values():
        for name in them:
            crates[name].shared += 1
    whole, kept = House(), House()
    for name, house in crates.items():
        whole.add(house)
        if not ASIDE.search(name):
            kept.add(house)
    whole.shared = kept.shared = len(shared)
    print("\n".join([row(HEADS), "|" + "---|" * len(HEADS)]))
    print("\n".join(house.row(name, bool(ASIDE.search(name))) for name, house in sorted(crates.items(), key=lambda it: -it[1].code)))
    print("\n".join([kept.row("all but those of tests and rows", False), whole.row("all crates", False)]))

    there = {promise: files for promise, files in PROMISES.items() if all(pathlib.PurePosixPath("crates") / it in tree.texts for it in files)}
    behind = {promise: tree.imported(files) for promise, files in there.items()}
    print("\n| behind | lines of definitions | files |\n|---|---|---|")
    for promise, modules in behind.items():
        print(f"| {promise} | {tree.lines(modules)} | {len(modules)} |")

    chain = tree.places(behind.get(HEADLINE, ()))
    twice = {name: paths for name, paths in sorted(chain.items()) if len(paths) > 1}
    print("\n| public definitions | names | that mean two things |\n|---|---|---|")
    print(row(["in several crates", len(owners), len(shared)]))
    print(row([f"in several modules behind {HEADLINE}", len(chain), len(twice)]))
    if "--files" in options:
        for promise, modules in behind.items():
            print(f"\n{promise}:\n")
            print("\n".join(f"- {it}, {tree.lines({it})}" for it in sorted(modules)))
    if "--names" in options:
        print("\nIn several crates; with * where one of them stands behind the headline:\n")
        print("\n".join(f"- {name}{' *' if name in chain else ''}: {', '.join(them)}" for name, them in shared.items()))
        print("\nIn several modules behind the headline:\n")
        print("\n".join(f"- {name}: {', '.join(named(it) for it in paths)}" for name, paths in twice.items()))
    return 0


if __name__ == "__main__":
    sys.exit(main())
