"""A picture as SVG, laid out as the text is."""
from html import escape

from run import Row
from text import FIRST, width

# The size of a character and of a line, in pixels.
ACROSS, DOWN = 7.3, 26
STYLE = """text { font: 12px monospace; fill: #222; paint-order: stroke; stroke: #fff; stroke-width: 4px; }
  .node { font-weight: bold; text-anchor: middle; } .way { text-anchor: middle; } .mark { fill: #888; }
  line { stroke: #888; } .arrow { stroke: #246; marker-end: url(#head); }"""
# How a place is marked: the colour of its dot.
COLOURS = {"o": "#246", "*": "#d80", "#": "#282", "X": "#c22", "+": "#828"}
TOLD = {"o": "request", "*": "a leader is known", "#": "flush", "X": "crash or stop", "+": "checkpoint"}


def draw(nodes: int, rows: list[Row], title: str) -> str:
    wide = width(rows)
    places = [(FIRST + node * wide) * ACROSS for node in range(nodes)]
    # The text of the last column stands beside it.
    beside = max([12, *(len(row.text) + 4 - (nodes - row.node) * wide for row in rows if row.to is None)])
    size, bottom = round(places[-1] + beside * ACROSS), (len(rows) + 1) * DOWN + 12
    signs = [sign for sign in COLOURS if any(row.sign == sign for row in rows)]
    parts = [
        f'<svg xmlns="http://www.w3.org/2000/svg" width="{size}" height="{bottom + DOWN}" '
        f'viewBox="0 0 {size} {bottom + DOWN}" role="img">',
        f"<title>{escape(title)}</title>",
        f"<style>{STYLE}</style>",
        '<defs><marker id="head" markerWidth="8" markerHeight="8" refX="8" refY="4" orient="auto">'
        '<path d="M0,0 L8,4 L0,8 z" fill="#246"/></marker></defs>',
        f'<rect width="{size}" height="{bottom + DOWN}" fill="#fff"/>',
    ]
    for number, place in enumerate(places, 1):
        parts.append(f'<text class="node" x="{place:.1f}" y="16">node {number}</text>')
        parts.append(f'<line x1="{place:.1f}" y1="24" x2="{place:.1f}" y2="{bottom}"/>')
    for number, row in enumerate(rows, 1):
        parts += draw_row(row, places, number * DOWN + 16)
    for number, sign in enumerate(signs):
        across = FIRST * ACROSS + number * 160
        parts.append(dot(across, bottom + 8, sign))
        parts.append(f'<text class="mark" x="{across + 10:.1f}" y="{bottom + 12}">{TOLD[sign]}</text>')
    return "\n".join([*parts, "</svg>"]) + "\n"


def draw_row(row: Row, places: list[float], down: int) -> list[str]:
    start = places[row.node - 1]
    parts = [f'<text class="mark" x="4" y="{down + 4}">{escape(row.mark)}</text>']
    if row.to is None:
        parts.append(f'<text x="{start + 10:.1f}" y="{down + 4}">{escape(row.text)}</text>')
        return [*parts, dot(start, down, row.sign)]
    end = places[row.to - 1]
    middle = (start + end) / 2
    parts.append(f'<line class="arrow" x1="{start:.1f}" y1="{down}" x2="{end:.1f}" y2="{down}"/>')
    parts.append(f'<text class="way" x="{middle:.1f}" y="{down - 6}">{escape(row.text)}</text>')
    return [*parts, dot(end, down, row.sign)] if row.sign else parts


def dot(across: float, down: int, sign: str) -> str:
    return f'<circle cx="{across:.1f}" cy="{down}" r="4" fill="{COLOURS[sign]}"/>'
