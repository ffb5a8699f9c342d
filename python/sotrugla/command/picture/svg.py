"""A drawing as an SVG file, by the standard library alone."""

from __future__ import annotations

from typing import Dict, Iterator, List, Sequence
from xml.sax.saxutils import escape, quoteattr

from .drawing import Cells, Drawing, Part, Point, Shape, Strokes, Words

_FONTS = "DejaVu Sans, Arial, Helvetica, sans-serif"
_GRID = "#808080"


def written(drawing: Drawing) -> bytes:
    head = [
        '<?xml version="1.0" encoding="UTF-8"?>',
        f'<svg xmlns="http://www.w3.org/2000/svg" width="{drawing.width}" height="{drawing.height}" '
        f'viewBox="0 0 {drawing.width} {drawing.height}" font-family="{_FONTS}">',
        f"<title>{escape(drawing.title)}</title>",
        '<rect width="100%" height="100%" fill="#ffffff"/>',
    ]
    parts = [line for part in drawing.parts for line in _part(part)]
    return "".join(f"{line}\n" for line in [*head, *parts, "</svg>"]).encode()


def _part(part: Part) -> Iterator[str]:
    if isinstance(part, Cells):
        yield from _cells(part)
    elif isinstance(part, Strokes):
        yield f'<path class="{part.name}" d="{_path(part.lines)}" {_stroke(part.colour, part.width)}/>'
    elif isinstance(part, Shape):
        yield f'<path class="{part.name}" d="{_path([part.points])}Z" fill="{part.colour}"/>'
    else:
        yield _words(part)


def _cells(cells: Cells) -> Iterator[str]:
    """A path for each grey, in cells; then the grid, in points."""
    left, top, side = cells.left, cells.top, cells.side
    yield f'<g class="page" transform="translate({left} {top}) scale({side})" shape-rendering="crispEdges">'
    for grey, runs in sorted(_runs(cells.rows).items()):
        yield f'<path fill="#{grey:02x}{grey:02x}{grey:02x}" d="{"".join(runs)}"/>'
    yield "</g>"
    width, height = len(cells.rows[0]) * side, len(cells.rows) * side
    across = [f"M{left} {y}h{width}" for y in range(top, top + height + 1, side)]
    down = [f"M{x} {top}v{height}" for x in range(left, left + width + 1, side)]
    yield f'<path class="grid" d="{"".join(across + down)}" {_stroke(_GRID, 0.5)}/>'


def _runs(rows: Sequence[bytes]) -> Dict[int, List[str]]:
    """The runs of each grey: neighbours of one grey in a row are one."""
    runs: Dict[int, List[str]] = {}
    for y, row in enumerate(rows):
        start = 0
        for x in range(1, len(row) + 1):
            if x == len(row) or row[x] != row[start]:
                runs.setdefault(row[start], []).append(f"M{start} {y}h{x - start}v1h{start - x}z")
                start = x
    return runs


def _path(lines: Sequence[Sequence[Point]]) -> str:
    return "".join("M" + "L".join(f"{x:.1f} {y:.1f}" for x, y in line) for line in lines)


def _stroke(colour: str, width: float) -> str:
    return f'fill="none" stroke="{colour}" stroke-width="{width}"'


def _words(words: Words) -> str:
    bold = ' font-weight="bold"' if words.bold else ""
    place = f'x="{words.left:.1f}" y="{words.base:.1f}" font-size="{words.size}" text-anchor="{words.anchor}"'
    named = f"class={quoteattr(words.name)}"
    return f'<text {named} {place} fill="{words.colour}"{bold}>{escape(words.text)}</text>'
