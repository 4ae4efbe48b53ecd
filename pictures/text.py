"""A picture as text: a column for each node, a line for each row."""
from run import Row

# Where the first node stands; how much wider than the longest label the way to the next one is.
FIRST, MORE = 7, 6


def width(rows: list[Row]) -> int:
    """How far a node stands from the next one."""
    return max([18, *(len(row.text) for row in rows if row.to)]) + MORE


def draw(nodes: int, rows: list[Row]) -> str:
    wide = width(rows)
    places = [FIRST + node * wide for node in range(nodes)]
    head: list[str] = []
    for number, place in enumerate(places, 1):
        put(head, place - 3, f"node {number}")
    lines = ["".join(head)]
    for row in rows:
        line = [" "] * (places[-1] + 1)
        for place in places:
            line[place] = "|"
        put(line, 0, row.mark)
        if row.to is None:
            line[places[row.node - 1]] = row.sign
            put(line, places[row.node - 1] + 2, row.text)
        else:
            way(line, places[row.node - 1], places[row.to - 1], row)
        lines.append("".join(line).rstrip())
    return "\n".join(lines) + "\n"


def way(line: list[str], start: int, end: int, row: Row) -> None:
    """An arrow with its text on it."""
    low, high = min(start, end), max(start, end)
    line[low + 1:high] = "-" * (high - low - 1)
    # On a long way the text stands beside its end.
    first = low + (high - low - len(row.text)) // 2 if high - low < 2 * len(row.text) else low + 5
    put(line, first - 1, f" {row.text} ")
    line[end - 1 if end > start else end + 1] = ">" if end > start else "<"
    if row.sign:
        line[end] = row.sign


def put(line: list[str], at: int, text: str) -> None:
    line.extend(" " * (at + len(text) - len(line)))
    line[at:at + len(text)] = text
