"""metrics.py: compares the alerts and the dashboard of examples/ with the metrics that the code tells, for check.py."""
import json
import pathlib
import re
from collections.abc import Callable, Iterator

Found = tuple[bool, int, str]
NAME = re.compile(r"\b(?:cinoweta|process)_\w+")
RUNBOOK = re.compile(r"runbook_url: \S*/(\w+\.md)#(\S+)$")


def told(root: pathlib.Path) -> set[str]:
    """The names of all metrics, as the code has them."""
    sources = (root / "crates" / "ring_status" / "src").glob("*.rt")
    # A name stands at the front of a text.
    return {name for path in sources for name in re.findall(rf'"({NAME.pattern})', path.read_text(encoding="utf-8"))}


def named(path: pathlib.Path, known: set[str]) -> Iterator[Found]:
    """Each metric that a file names: whether it is told, its line, and what is wrong."""
    for number, line in enumerate(path.read_text(encoding="utf-8").splitlines(), 1):
        for name in NAME.findall(line):
            yield name in known, number, f"{name} is no metric"


def alerts(path: pathlib.Path, docs: pathlib.Path, headings: Callable[[pathlib.Path], set[str]]) -> Iterator[Found]:
    """Each alert has a severity, a page that says what to do and is there, and a text that names the ring; the page names it."""
    page = (docs / "OPERATING.md").read_text(encoding="utf-8")
    text = path.read_text(encoding="utf-8")
    for part in re.split(r"(?m)^      - (?=alert: )", text)[1:]:
        name = part.split()[1]
        line = text[: text.index(part)].count("\n") + 1
        runbook = next((match for row in part.splitlines() if (match := RUNBOOK.search(row))), None)
        is_there = runbook is not None and runbook[2] in headings(docs / runbook[1])
        yield is_there, line, f"the runbook_url of {name} leads nowhere"
        yield re.search(r"severity: (critical|warning)\b", part) is not None, line, f"{name} has no severity"
        yield "$labels.instance" in part, line, f"{name} does not say of which ring it tells"
        yield f"`{name}`" in page, line, f"{name} does not stand in docs/OPERATING.md"


def queries(path: pathlib.Path) -> Iterator[Found]:
    """The dashboard is JSON, and each of its panels asks for a metric."""
    try:
        panels = json.loads(path.read_text(encoding="utf-8"))["panels"]
    except (ValueError, KeyError) as fault:
        yield False, 1, f"it is no dashboard: {fault!r}"
        return
    for panel in panels:
        asked = [target.get("expr", "") for target in panel.get("targets", [])]
        yield bool(asked) and all(map(NAME.search, asked)), 1, f"the panel {panel.get('title')} asks for no metric"


def examples(root: pathlib.Path, headings: Callable[[pathlib.Path], set[str]]) -> list[tuple[pathlib.Path, Iterator[Found]]]:
    """What is to be looked at in each file."""
    rules, board, known = root / "examples" / "alerts.yml", root / "examples" / "grafana.json", told(root)
    return [(rules, named(rules, known)), (rules, alerts(rules, root / "docs", headings)), (board, named(board, known)),
            (board, queries(board))]
