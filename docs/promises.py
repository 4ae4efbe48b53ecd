#!/usr/bin/env python3
"""Prints what is promised, from the sources alone, as Markdown: a section for each crate.

    docs/promises.py [CRATE..]

The first table of a crate has each public call with a contract: the first sentence of its comment, and the names of its conditions and
clauses. A clause without a name is `its clause`; one that is a record of the crate has the names of its fields. The second has each wrong
body: the function that its edit stands in, and the line `says:` of the edit. Crates of tests and of rows have the second alone. Behind the
tables stands the README.md of the crate.

`make docs` writes all of it to bin/promises.md. docs/check.py prints the faults: a call without a comment, an edit without `says:`, and one
of which an old text does not stand once in its file."""

import pathlib
import re
import sys
from dataclasses import dataclass, field
from typing import Iterator

ROOT = pathlib.Path(__file__).resolve().parent.parent
ASIDE = re.compile(r"_tests$|rows$")
FUNCTION = re.compile(r"^(\s*)(pub(?:\([^)]*\))?\s+)?(?:const\s+)?(?:unsafe\s+)?fn\s+(\w+)")
CLAUSE = re.compile(r"^\s*(requires|ensures)\s*(\w+)?\s*\{")
# What a clause has that is one word with its arguments, and no more.
APPLIED = re.compile(r"(\w+)(?: (?:[\w.]+|\[\]))*")
RECORD = re.compile(r"^( *)pub record (\w+).*?\bwhere\n((?:\1  [^\n]*\n|\n)+)", re.MULTILINE | re.DOTALL)
BLOCK = re.compile(r"^(?:unsafe\s+)?(?:impl|pub trait|trait)\b")
ITEM = re.compile(r"^\s*(?:pub(?:\([^)]*\))?\s+)?(?:struct|enum|type|const|static|ghost|impl|use|mod|macro_rules!)\s*(\w+)?")
SENTENCE = re.compile(r"(?<=\.)\s")


@dataclass
class Function:
    """A function of a file: its lines, its name with its type, and its contract."""

    begin: int
    end: int
    name: str
    is_public: bool
    comment: str
    # The name of each, and what it applies to all its arguments; None for none.
    requires: list[tuple[str | None, str | None]] = field(default_factory=list)
    ensures: list[tuple[str | None, str | None]] = field(default_factory=list)

    def promise(self) -> str:
        return SENTENCE.split(self.comment)[0].replace("|", "\\|")


@dataclass
class Edit:
    """A wrong body: its file, its crate, what it says, where it stands, None for nowhere, and what is wrong with its lines, or None."""

    path: pathlib.Path
    crate: str
    says: str
    stands_in: str | None
    misfit: str | None


def owner_of(line: str) -> tuple[str, bool]:
    """The type of a block's head, and whether its functions are those of a public trait, declared or met."""
    head = line.partition("{")[0].partition(" where ")[0]
    while (shorter := re.sub(r"<[^<>]*>", "", head)) != head:
        head = shorter
    parts = re.sub(r"\b(?:unsafe|impl|pub|trait)\b", "", head).partition(":")[0 if "trait" in head.split() else slice(0, 3)]
    names = "".join(parts).split(" for ")
    return names[-1].strip().split("::")[-1], "trait" in head.split() and "pub" in head.split()


def end_of(lines: list[str], begin: int, indent: str) -> int:
    """The last line of the function that begins there."""
    if re.search(r"(\{\}|;|\})\s*$", lines[begin]):
        return begin
    for at in range(begin + 1, len(lines)):
        if lines[at].startswith(indent + "}") or lines[at] in (indent + "{}", indent + ";"):
            return at
        if lines[at].rstrip().endswith(";") and lines[at].startswith(indent + ")"):
            return at
    return len(lines) - 1


def applied(text: str) -> str | None:
    """The word that a clause applies to arguments, where that is all it says. The text begins behind the clause's brace."""
    end, depth = 0, 1
    while end < len(text) and depth:
        depth += {"{": 1, "}": -1}.get(text[end], 0)
        end += 1
    clause = " ".join(text[: end - 1].split())
    while (shorter := re.sub(r"\([^()]*\)", "_", clause)) != clause:
        clause = shorter
    found = APPLIED.fullmatch(clause)
    return found[1] if found else None


def functions(text: str) -> Iterator[Function]:
    """The functions of a file, a method as TYPE::NAME."""
    lines = text.splitlines()
    owner, is_trait, comment = "", False, []
    for at, line in enumerate(lines):
        if BLOCK.match(line):
            owner, is_trait = owner_of(line)
        elif line.startswith("}"):
            owner, is_trait = "", False
        if line.strip().startswith("///"):
            comment.append(line.strip()[3:].strip())
            continue
        if it := FUNCTION.match(line):
            end = end_of(lines, at, it[1])
            is_public = (it[2] or "").strip() == "pub" or is_trait
            found = Function(at, end, f"{owner}::{it[3]}" if owner else it[3], is_public, " ".join(comment))
            for place, below in enumerate(lines[at + 1 : end + 1], at + 1):
                if below == it[1] + "{" or FUNCTION.match(below):
                    break
                if clause := CLAUSE.match(below):
                    said = applied(" ".join(lines[place : end + 1]).partition("{")[2])
                    (found.requires if clause[1] == "requires" else found.ensures).append((clause[2], said))
            yield found
        if not line.strip().startswith(("#[", "//")):
            comment = []


def named(name: str | None, fields: list[str] | None) -> str:
    """A clause by its name, and by its fields where it is a record."""
    parts = ", ".join(f"`{it}`" for it in fields or ())
    return f"`{name}`: {parts}" if name and parts else parts or (f"`{name}`" if name else "its clause")


class Sources:
    """The files of the crates, their functions, and the edits."""

    def __init__(self, root: pathlib.Path) -> None:
        self.root = root
        self.crates = sorted(it.name for it in (root / "crates").iterdir() if it.is_dir())
        paths = {path: path.read_text() for crate in self.crates for path in sorted((root / "crates" / crate).glob("src/**/*.rt"))}
        self.lines = {path: text.splitlines() for path, text in paths.items()}
        self.functions = {path: list(functions(text)) for path, text in paths.items()}
        places = {"crates/*/must-fail": -3, "wrong_bodies/*": -2, "wrong_bodies/by_tests/*": -2, "must_not_compile": -2}
        self.edits = [self.edit(path, path.parts[at]) for place, at in places.items() for path in sorted(root.glob(f"{place}/*.edit"))]

    def edit(self, path: pathlib.Path, crate: str) -> Edit:
        said: dict[str, str] = {}
        lines = [line.partition(": ")[::2] for line in path.read_text().splitlines()]
        for name, text in lines:
            said.setdefault(name, text)
        crate = said.get("crate", crate)
        place = self.stands_in(crate, said.get("file", ""), said.get("old"))
        return Edit(path, crate, said.get("says", "").strip(), place, self.misfit(crate, lines))

    def misfit(self, crate: str, lines: list[tuple[str, str]]) -> str | None:
        """What is wrong with the lines of an edit, whose pairs of texts are applied in turn. Each old text stands once in its file."""
        texts: dict[pathlib.Path, str] = {}
        path, old = None, None
        for name, text in lines:
            if name == "file":
                path = self.root / "crates" / crate / text
                if path not in texts and not path.is_file():
                    return f"there is no {text}"
                texts.setdefault(path, path.read_text())
            elif name == "old":
                old = text
                if path is None or texts[path].count(old) != 1:
                    return f"`{old}` does not stand once in its file"
            elif name == "new" and path and old:
                texts[path] = texts[path].replace(old, text)
        return None if old else "it has no line `old:`"

    def stands_in(self, crate: str, file: str, old: str | None) -> str | None:
        """The function that a text stands in, or else what is declared there; a file of specs/ or proofs/ is named itself."""
        path = self.root / "crates" / crate / file
        if old is None or not path.is_file():
            return None
        at = next((at for at, line in enumerate(self.lines.get(path, path.read_text().splitlines())) if old in line), None)
        if at is None:
            return None
        around = [it for it in self.functions.get(path, []) if it.begin <= at <= it.end]
        if around:
            return around[-1].name
        above = [ITEM.match(line) for line in self.lines.get(path, [])[: at + 1]]
        return next((it[1] for it in reversed(above) if it and it[1]), file)

    def calls(self, crate: str) -> list[Function]:
        """The public calls of a crate that have a contract, in order of file and line."""
        if ASIDE.search(crate):
            return []
        folder = self.root / "crates" / crate
        found = [it for path in self.functions if path.is_relative_to(folder) for it in self.functions[path]]
        return [it for it in found if it.is_public and (it.requires or it.ensures)]

    def records(self, crate: str) -> dict[str, list[str]]:
        """The fields of each record of a crate's definitions."""
        texts = [path.read_text() for path in sorted((self.root / "crates" / crate / "specs").glob("**/*.antt"))]
        return {it[2]: re.findall(r"^ +pub (\w+) :", it[3], re.MULTILINE) for text in texts for it in RECORD.finditer(text)}

    def faults(self) -> Iterator[tuple[pathlib.Path, int, str]]:
        """What the tables lack: the file, its line, and what is wrong."""
        for path, found in self.functions.items():
            calls = self.calls(path.relative_to(self.root / "crates").parts[0])
            for it in found:
                if it in calls and not it.comment:
                    yield path, it.begin + 1, f"{it.name} has a contract and no comment"
        for edit in self.edits:
            if edit.misfit:
                yield edit.path, 1, edit.misfit
            if len(edit.says.split()) < 2:
                yield edit.path, 1, "it has no line `says:`"

    def section(self, crate: str) -> Iterator[str]:
        """The tables of a crate, and what its README.md says."""
        yield f"\n## {crate}\n"
        if calls := self.calls(crate):
            yield "| call | what it promises | conditions | clauses |\n|---|---|---|---|"
            records = self.records(crate)
            for it in calls:
                names = [", ".join(named(of, records.get(word)) for of, word in them) for them in (it.requires, it.ensures)]
                yield f"| `{it.name}` | {it.promise()} | {' | '.join(names)} |"
        if edits := [it for it in self.edits if it.crate == crate]:
            yield "\n| wrong body | stands in | what it says |\n|---|---|---|"
            for it in sorted(edits, key=lambda it: (it.stands_in or "", it.path.stem)):
                yield f"| `{it.path.stem}` | `{it.stands_in}` | {it.says.replace('|', chr(92) + '|')} |"
        readme = self.root / "crates" / crate / "README.md"
        if readme.is_file():
            yield "\n" + readme.read_text().partition("\n")[2].strip().replace("\n## ", "\n### ")


def main() -> int:
    sources = Sources(ROOT)
    crates = sys.argv[1:] or sources.crates
    if unknown := [it for it in crates if it not in sources.crates]:
        print(f"there is no crate {', '.join(unknown)}", file=sys.stderr)
        return 2
    print("# What is promised, call by call\n\ndocs/promises.py made this page from the sources.")
    for crate in crates:
        print("\n".join(sources.section(crate)))
    return 0


if __name__ == "__main__":
    sys.exit(main())
