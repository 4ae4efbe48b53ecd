#!/usr/bin/env python3
"""man.py: prints the man page ringd(8), which is docs/OPERATING.md, and its words as ringd --help tells them, in roff.

It knows the forms that the page has: headings, paragraphs, lists, tables and code, with `code`, **strong** and links in
a line. A table is a list of its first cells, each with what stands beside it. What stands between a block
`<!-- repository -->` and a block `<!-- -->` is left out. Status 1 where the page then still names a path or a command
of the repository, which who reads it does not have."""
import pathlib
import re
import sys

PAGE = pathlib.Path(__file__).resolve().parent / "OPERATING.md"
HEAD = r""".TH RINGD 8
.SH NAME
ringd \- a ring of durable nodes that elect a leader for each group and term
.SH SYNOPSIS
.B ringd
.RB [ \-\-settings " \fIPATH\fR]"
.RB [ \-\-existing ]
.RB [ \-\-fail\-stop ]
.RB [ \-\-serve " \fIK\fR | " \-\-always " | " \-\-make " | " \-\-check " [" \-\-leaders ]]
.RB [ \-\-ring " \fIID\fR]"
.RB [ \-\-log " \fIFORM\fR]"
.RB [ \-\-verbose ]
.RB [ \-\-doors " \fIS\fR]"
.RB [ \-\-idle " \fISECONDS\fR]"
.RB [ \-\-leap " \fIN\fR]"
.RB [ \-\-status " \fIPORT\fR]"
.RB [ \-\-watchers " \fIW\fR]"
.RB [ \-\-listen " \fIHOST\fR]"
.br
.BR "ringd \-\-help" " | " \-\-version
.SH DESCRIPTION"""
HERE_ALONE = re.compile(r"(?<![\w/])(?:\.ci|bench|bin|clients|crates|docs|examples|pictures|trials)/|\.md\b|(?:^|\\fB)make ")


def escaped(text: str) -> str:
    """Text that roff takes as it stands."""
    text = text.replace("\\", r"\e").replace("-", r"\-")
    return "\\&" + text if text[:1] in (".", "'") else text


def inline(text: str) -> str:
    """A text with its code, its strong words and its links."""
    text = re.sub(r"\[([^]]*)\]\([^)]*\)", r"\1", text)
    parts = re.split(r"(`[^`]*`|\*\*[^*]*\*\*)", text)
    made = [rf"\fB{escaped(part.strip('`*'))}\fR" if part[:1] in ("`", "*") and part else escaped(part)
            for part in parts]
    return "".join(made)


def cells(line: str) -> list[str]:
    return [inline(cell.strip()) for cell in line.strip().strip("|").split("|")]


def table(lines: list[str]) -> list[str]:
    """A list of the first cells. Where there are more than two, what stands in each column is named."""
    heads, rows = cells(lines[0]), [cells(line) for line in lines[2:]]
    made = []
    for first, *others in rows:
        told = [other if len(others) == 1 else f"{head}: {other}" for head, other in zip(heads[1:], others) if other]
        made += [".TP", first, *(["\n.br\n".join(told)] if told else ["\\&"])]
    return made


def code(lines: list[str]) -> list[str]:
    return [".PP", ".RS 4", ".nf", *map(escaped, lines), ".fi", ".RE"]


def blocks(text: str) -> list[list[str]]:
    """The lines of the page, in blocks; what is fenced is one."""
    made: list[list[str]] = [[]]
    is_fenced = False
    for line in text.splitlines():
        is_fenced ^= line.startswith("```")
        if line or is_fenced:
            made[-1].append(line)
        else:
            made.append([])
    return [block for block in kept(made) if block]


def kept(made: list[list[str]]) -> list[list[str]]:
    """The blocks without what is of the repository alone."""
    is_kept, left = True, []
    for block in made:
        if block[:1] in (["<!-- repository -->"], ["<!-- -->"]):
            is_kept = block == ["<!-- -->"]
        elif is_kept:
            left.append(block)
    return left


def page() -> str:
    made = [HEAD]
    for block in blocks(PAGE.read_text(encoding="utf-8"))[1:]:
        if block[0].startswith("## "):
            made += [f".SH {inline(block[0][3:].upper())}"]
        elif block[0].startswith("```"):
            made += code(block[1:-1])
        elif block[0].startswith("    "):
            made += code([line[4:] for line in block])
        elif block[0].startswith("|"):
            made += table(block)
        elif block[0].startswith("- "):
            items = "\n".join(block)[2:].split("\n- ")
            made += [part for item in items for part in (".IP \\(bu 2", inline(" ".join(item.split())))]
        else:
            made += [".PP", inline(" ".join(block))]
    return "\n".join(made) + "\n"


def main() -> int:
    text = page()
    named = [line for line in text.splitlines() if HERE_ALONE.search(line)]
    print(text, end="")
    for line in named:
        print(f"man.py: of the repository alone: {line}", file=sys.stderr)
    return 1 if named else 0


if __name__ == "__main__":
    sys.exit(main())
