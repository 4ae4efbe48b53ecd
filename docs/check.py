#!/usr/bin/env python3
"""Compares the documents with the code, and prints each name of theirs that the code does not have.

    docs/check.py [ROOT]

ROOT is the repository, by default the one that this file stands in. Nothing is changed, proved or run. Looked at are

- in docs/PROMISES.md, README.md and the README.md of each crate every name in backticks: functions with their type,
  clauses with their function, definitions, types, crates, files, and edits with their crate. In a table the row says of
  what crate, function or edit a name has to be;
- what docs/promises.py prints of the sources: each public call with a contract has a comment, and each edit, a wrong
  body or a program that must not compile, has a line `says:`, and old texts that stand once in their files;
- the README.md of each crate, which is there and says something; only crates of tests and of rows may lack it;
- every relative link of README.md, docs/*.md and each other README.md, its heading too, and every page of docs/ that
  one of them names;
- the logic that README.md trusts, which is the one that `rt version` prints;
- examples/alerts.yml and examples/grafana.json: each metric is one that the code tells, each alert has a severity and a
  runbook's heading.

Each fault is a line `FILE:LINE: what is wrong`. Behind them stands how many edits there are. The last line is
`N names, M not found`, where links, pages and edits count as names. The status
is 0 where there is no fault, 1 where there is one, and 2 where ROOT has no docs/PROMISES.md."""

import pathlib
import re
import subprocess
import sys
from collections import defaultdict
from dataclasses import dataclass, field
from typing import Iterator, NamedTuple

import promises as made
from metrics import examples

# What the language or its library names, or a line that a client sends, and no file of the repository.
LANGUAGE = {*"Eq Ord PartialOrd Debug Display From Ok Err None Option Result Read Write BufRead Brand requires ensures bye CINOWETA_TERM RINGD RINGCTL".split()}
CLAUSE = re.compile(r"\s*(?:ensures|requires)\s+(\w+\s+)?\{")
FUNCTION = re.compile(r"\s*(?:pub(?:\([^)]*\))?\s+)?(?:const\s+)?(?:unsafe\s+)?fn\s+(\w+)")
MEMBER = re.compile(r"\s*ghost\s+(\w+)\s*[:=]")
ITEM = re.compile(r"\s*(?:pub(?:\([^)]*\))?\s+)?(?:struct|enum|trait|type|const|static|mod)\s+(\w+)")
FIELD = re.compile(r"    (?:pub(?:\([^)]*\))?\s+)?(\w+)\s*(?::|,|\(|\{)")
DEFINED = re.compile(r"\s*(?:(?:unfoldable|abbrev|pub|data|record)\s+)*(\w+)\b[^:=]*(?:\([^)]*\)[^:=]*)*[:=]")
CODE = re.compile(r"`([^`]+)`")
CRATE_AFTER = re.compile(r"\s*(?:of|in)\s+`?(\w+)`?")
LINK = re.compile(r"\[[^\]]*\]\(([^)\s]+)\)")
PAGE = re.compile(r"\bdocs/[A-Za-z_]+\.\w+")
LOGIC = re.compile(r"\blogic [0-9a-f]+\b")
WORD = re.compile(r"[A-Za-z_]\w*")


class Found(NamedTuple):
    """A name in backticks: the line, the name, and what follows it in its cell or line."""

    line: int
    name: str
    behind: str


@dataclass
class Function:
    """A function of the code: its crate, its modules, the types and traits of its block, and its clauses, "" for one without a name."""

    crate: str
    modules: set[str]
    owners: set[str]
    clauses: set[str] = field(default_factory=set)


class Code:
    """The names that the crates define, and the edits of the tree."""

    def __init__(self, root: pathlib.Path) -> None:
        self.root = root
        self.crates = {it.name for it in (root / "crates").iterdir() if it.is_dir()}
        self.libraries = {*WORD.findall((root / "crates.txt").read_text()), "std"}
        self.functions: dict[str, list[Function]] = defaultdict(list)
        self.clauses: dict[str, set[str]] = defaultdict(set)
        self.members: dict[str, set[str]] = defaultdict(set)
        self.names: dict[str, set[str]] = defaultdict(set)
        self.traits: dict[str, set[str]] = defaultdict(set)
        for crate in self.crates:
            for path in sorted((root / "crates" / crate / "src").rglob("*.rt")):
                self.read_code(crate, path)
            for path in sorted((root / "crates" / crate / "specs").rglob("*.antt")):
                self.read_definitions(crate, path)
        self.edits = {
            *((it.parts[-3], it.stem) for it in root.glob("crates/*/must-fail/*.edit")),
            *((it.parts[-2], it.stem) for it in root.glob("wrong_bodies/*/*.edit")),
            *((it.parts[-2], it.stem) for it in root.glob("wrong_bodies/by_tests/*/*.edit")),
            *(("must_not_compile", it.stem) for it in root.glob("must_not_compile/*.edit")),
        }

    def read_code(self, crate: str, path: pathlib.Path) -> None:
        modules = {it.removesuffix(".rt") for it in path.relative_to(self.root / "crates" / crate / "src").parts}
        owners: set[str] = set()
        head = ""
        last = None
        is_type = False
        for line in path.read_text().splitlines():
            if head or re.match(r"(?:unsafe\s+)?impl\b|(?:pub(?:\([^)]*\))?\s+)?trait\b", line):
                head += " " + line
                if "{" in line:
                    owners, head = self.owners_of(head, crate), ""
            elif line.startswith("}"):
                owners, is_type = set(), False
            elif it := FUNCTION.match(line):
                last = Function(crate, modules, owners)
                self.functions[it[1]].append(last)
            elif it := CLAUSE.match(line):
                clause = (it[1] or "").strip()
                self.clauses[clause].add(crate)
                if last:
                    last.clauses.add(clause)
            elif it := MEMBER.match(line):
                self.members[it[1]].add(crate)
                self.functions[it[1]].append(Function(crate, modules, owners, {it[1]}))
            elif it := ITEM.match(line):
                is_type = line[0] != " " and line.endswith("{")
                self.names[it[1]].add(crate)
            elif it := FIELD.match(line) if is_type else None:
                self.names[it[1]].add(crate)
        for it in modules:
            self.names[it].add(crate)

    def owners_of(self, head: str, crate: str) -> set[str]:
        """The names of the type and the trait at the head of a block."""
        while (shorter := re.sub(r"<[^<>]*>", "", head)) != head:
            head = shorter
        head = head.partition("{")[0].partition(" where ")[0]
        if "trait" in head.split():
            trait = head.split("trait")[1].split(":")[0].strip()
            self.names[trait].add(crate)
            return {trait}
        parts = [it.strip().split("::")[-1] for it in head.replace("unsafe ", "").replace("impl", "", 1).split(" for ")]
        if len(parts) == 2:
            self.traits[parts[1]].add(parts[0])
        return set(parts)

    def read_definitions(self, crate: str, path: pathlib.Path) -> None:
        self.names[path.stem].add(crate)
        for line in path.read_text().splitlines():
            if it := DEFINED.match(line):
                self.names[it[1]].add(crate)

    def find(self, name: str, crates: set[str]) -> list[Function]:
        """The functions that are called so, `TYPE::NAME`, `MODULE::NAME` or `NAME`, in one of these crates, or in any for none."""
        owner, _, own = name.rpartition("::")
        owner = owner.rpartition("::")[2]
        known = {owner, *self.traits[owner]} if owner in self.traits else {owner}
        there = [it for it in self.functions.get(own, []) if not crates or it.crate in crates]
        return [it for it in there if not owner or known & it.owners or owner in it.modules or it.crate == owner]

    def is_known(self, name: str) -> bool:
        """Whether a crate is, or defines, what is called so."""
        places = (LANGUAGE, self.libraries, self.crates, self.names, self.functions, self.clauses)
        return any(name in it for it in places)

    def is_path(self, name: str) -> bool:
        """Whether there is such a file or folder, from the root or from crates/, or such a file of definitions. CRATE stands for any
        crate, and a program in bin/ is there where its crate is."""
        name = re.sub(r"^bin/(\w+)$", r"crates/\1/src/main.rt", name.replace("CRATE", "*").rstrip("/"))
        return any(True for it in (name, f"crates/{name}", f"crates/{name}.antt") for _ in self.root.glob(it))


def spread(name: str) -> list[str]:
    """`A::{b, c}` as `A::b` and `A::c`."""
    it = re.fullmatch(r"(.*::)\{([^}]*)\}", name)
    return [it[1] + own.strip() for own in it[2].split(",")] if it else [name]


def in_backticks(line: int, text: str) -> list[Found]:
    return [Found(line, name, text[it.end() :]) for it in CODE.finditer(text) for name in spread(it[1])]


@dataclass
class Row:
    """A row of a table: its line, and each cell by the head of its column."""

    line: int
    cells: dict[str, str]

    def named(self, *heads: str) -> list[Found]:
        return [it for head in heads if head in self.cells for it in in_backticks(self.line, self.cells[head])]


class Page:
    """A page that is compared: its faults, and how many names were looked at."""

    def __init__(self, code: Code, path: pathlib.Path) -> None:
        self.code = code
        self.path = path
        self.faults: list[str] = []
        self.count = 0
        self.crates: set[str] = set()
        self.before: list[Function] = []

    def ask(self, is_there: bool, line: int, what: str) -> None:
        self.count += 1
        if not is_there:
            self.faults.append(f"{self.path.relative_to(self.code.root)}:{line}: {what}")

    def compare(self) -> None:
        heads: list[str] = []
        is_code = False
        for number, line in enumerate(self.path.read_text().splitlines(), 1):
            if line.startswith("```"):
                is_code = not is_code
            if is_code or line.startswith(("```", "    ")):
                continue
            if line.startswith("#"):
                self.before = []
                self.crates = {it for it in WORD.findall(line) if it in self.code.crates}
            cells = [it.strip() for it in re.split(r"(?<!\\)\|", line.strip()[1:-1])] if line.startswith("|") else []
            if not cells:
                heads = []
                self.sentence(in_backticks(number, line))
            elif not heads:
                heads = cells
                named = in_backticks(number, line)
                self.sentence(named)
                self.before = [function for it in named for function in self.code.find(it.name, self.crates)]
            elif not set(line) <= set("|-: "):
                self.row(Row(number, dict(zip(heads, cells, strict=False))))

    def row(self, row: Row) -> None:
        """A row of a table: what it says of functions, their clauses, and edits."""
        crates = {it for it in WORD.findall(row.cells.get("crate", "")) if it in self.code.crates} or self.crates
        for it in row.named("edit"):
            self.edit(it, crates)
        functions = self.functions(row, crates)
        for it in row.named("clauses", "clause"):
            is_clause = any(it.name in function.clauses for function in functions)
            is_cited = it.name in self.code.names if it.name[0].isupper() else bool(self.code.members.get(it.name, set()) & crates)
            self.ask(is_clause or is_cited, it.line, f"`{it.name}` is no clause of what the row names")
        if "its clause" in row.cells.get("clauses", ""):
            self.ask(any("" in it.clauses for it in functions), row.line, "no function of the row has a clause without a name")
        for it in row.named("refused by", "refused in", "to be refused by"):
            is_clause = bool(self.code.clauses.get(it.name, set()) & crates)
            self.ask(is_clause or self.is_named(it.name, crates), it.line, f"`{it.name}` is no function or clause of {said(crates)}")
        taken = {"edit", "clauses", "clause", "function", "law", "call", "of the law", "refused by", "refused in", "to be refused by"}
        for head, cell in row.cells.items():
            if head not in taken:
                self.sentence(in_backticks(row.line, cell))

    def functions(self, row: Row, crates: set[str]) -> list[Function]:
        """The functions that a row names. A name without a type is of the type that the row named last, where that has it."""
        found: list[Function] = []
        owner = ""
        for it in row.named("function", "law", "call", "of the law"):
            name, own = it.name, it.name.partition("<")[0]
            if name[0].isupper() and "::" not in name:
                self.ask(self.code.is_known(own), it.line, f"`{name}` is no type of the code")
                owner = own if own not in LANGUAGE else owner
                found += [of for named in self.code.functions.values() for of in named if own in of.owners]
                continue
            owner = name.rpartition("::")[0] or owner
            of = self.code.find(name if "::" in name else f"{owner}::{name}", crates) or self.code.find(name, crates)
            self.ask(bool(of), it.line, f"`{name}` is no function of {said(crates)}")
            found += of
        self.before = found or self.before
        return self.before

    def is_named(self, name: str, crates: set[str]) -> bool:
        own = name.partition("<")[0]
        is_defined = bool(self.code.names.get(own, set()) & (crates or self.code.crates))
        return is_defined or own in LANGUAGE or bool(self.code.find(own, set() if "::" in own else crates))

    def edit(self, it: Found, crates: set[str]) -> None:
        """A name in a column of edits, which is of the row's or the section's crate, or of the one that stands behind it."""
        place = re.match(r"(?:, `\w+`)*(?: and `\w+`)?(?: \([^)]*\))? \(?(?:of|in) (\w+)", it.behind)
        within = {place[1]} if place and (place[1] in self.code.crates or place[1] == "must_not_compile") else crates
        told = {(crate, it.name) for crate in within} & self.code.edits
        self.ask(bool(told), it.line, f"`{it.name}` is no edit of {said(within)}")

    def sentence(self, found: list[Found]) -> None:
        """Names in a sentence: of edits, of what the crates define, or of files."""
        for it in found:
            after = CRATE_AFTER.match(it.behind)
            within = {after[1]} if after and after[1] in self.code.crates else self.crates
            edits = {(crate, it.name) for crate in within | {"must_not_compile"}} & self.code.edits
            if edits or self.is_spoken(it.name):
                self.count += 1
            elif "/" in it.name or it.name.endswith((".rt", ".md", ".py")):
                self.ask(self.code.is_path(it.name), it.line, f"there is no `{it.name}`")
            else:
                names = [own for own in WORD.findall(it.name.replace("::", " ")) if len(own) > 1]
                self.ask(all(self.code.is_known(own) for own in names), it.line, f"`{it.name}` is nothing that the code defines")
                if "::" in it.name and names:
                    is_there = bool(self.code.find(it.name, set())) or names[-1][0].isupper()
                    self.ask(is_there, it.line, f"`{it.name}` is no function")

    def is_spoken(self, name: str) -> bool:
        """Whether this is what one types or reads, and no name: words with spaces, a number, or an option."""
        return " " in name or not WORD.search(name) or name.startswith(("-", "."))


def said(crates: set[str]) -> str:
    return " or ".join(sorted(crates)) or "any crate"


def headings(path: pathlib.Path) -> set[str]:
    """The anchors of a page's headings."""
    heads = [it.lstrip("#").strip() for it in path.read_text().splitlines() if it.startswith("#")]
    return {re.sub(r"[^\w\- ]", "", it.lower()).replace(" ", "-") for it in heads}


def links(root: pathlib.Path, path: pathlib.Path) -> Iterator[tuple[bool, int, str]]:
    """Each relative link of a page, and each page of docs/ that it names: whether it is there, its line, and what is wrong."""
    for number, line in enumerate(path.read_text().splitlines(), 1):
        for target in LINK.findall(line):
            if re.match(r"\w+:", target):
                continue
            name, _, anchor = target.partition("#")
            to = (path.parent / name).resolve() if name else path
            yield to.exists(), number, f"the link to {target} leads nowhere"
            if anchor and to.exists():
                yield anchor in headings(to), number, f"{name or path.name} has no heading #{anchor}"
        for name in PAGE.findall(LINK.sub("", line)):
            yield (root / name).exists(), number, f"there is no {name}"


def logics(path: pathlib.Path) -> Iterator[tuple[bool, int, str]]:
    """Each logic that a page names: whether it is the toolchain's, its line, and what is wrong; one that it does not name is at line 1."""
    try:
        version = subprocess.run(["rt", "version"], capture_output=True, text=True, check=True).stdout.strip()
    except (OSError, subprocess.CalledProcessError) as error:
        version = f"nothing: {error}"
    named = [(number, it) for number, line in enumerate(path.read_text().splitlines(), 1) for it in LOGIC.findall(line)]
    for number, it in named or [(1, "no logic")]:
        yield it in LOGIC.findall(version), number, f"{it} is named, and rt version prints {version}"


def main() -> int:
    root = pathlib.Path(sys.argv[1] if len(sys.argv) > 1 else pathlib.Path(__file__).parent.parent).resolve()
    if not (root / "docs" / "PROMISES.md").is_file():
        print(f"{root} has no docs/PROMISES.md", file=sys.stderr)
        return 2
    code = Code(root)
    sources = made.Sources(root)
    readmes = [root / "crates" / it / "README.md" for it in sorted(code.crates) if not made.ASIDE.search(it)]
    compared = [Page(code, path) for path in (root / "docs" / "PROMISES.md", root / "README.md", *readmes) if path.is_file()]
    for page in compared:
        page.compare()
    faults = [fault for page in compared for fault in page.faults]
    count = sum(page.count for page in compared) + len(sources.edits)
    pages = [root / "README.md", *sorted((root / "docs").glob("*.md")), *sorted(root.glob("*/README.md")), *sorted(root.glob("*/*/README.md"))]
    looked_at = [(path, links(root, path)) for path in pages] + [(pages[0], logics(pages[0]))] + examples(root, headings)
    for path, found in looked_at:
        for is_there, line, what in found:
            count += 1
            if not is_there:
                faults.append(f"{path.relative_to(root)}:{line}: {what}")
    missing = len(faults)
    faults += [f"{path.relative_to(root)}:{line}: {what}" for path, line, what in sources.faults()]
    silent = [path for path in readmes if not path.is_file() or not path.read_text().strip()]
    faults += [f"{path.relative_to(root)}:1: it is not there, or empty" for path in silent]
    gate = sum(it.path.parent.name == "must-fail" for it in sources.edits)
    by_tests = sum("by_tests" in it.path.parts for it in sources.edits)
    edits = f"{len(sources.edits)} edits: {gate} tried by the gate, {by_tests} that a test refuses"
    print("\n".join([*faults, edits, f"{count} names, {missing} not found"]))
    return 1 if faults else 0


if __name__ == "__main__":
    sys.exit(main())
