"""A drawing as a list of parts, which the writers put into a file. Places are in picture points from the upper left
corner."""

from __future__ import annotations

from typing import List, NamedTuple, Sequence, Tuple, Union

Point = Tuple[float, float]

INK, FAINT, PAPER = "#000000", "#555555", "#ffffff"


class Cells(NamedTuple):
    """Greys as squares of one side, with a grid between them."""

    left: int
    top: int
    side: int
    rows: Sequence[bytes]


class Strokes(NamedTuple):
    """Lines, each from point to point. The name says what they are of."""

    name: str
    lines: Sequence[Sequence[Point]]
    colour: str
    width: float


class Shape(NamedTuple):
    """A filled outline."""

    name: str
    points: Sequence[Point]
    colour: str


class Words(NamedTuple):
    """A text on its base line, which begins at the place, or has its middle or its end there."""

    name: str
    left: float
    base: float
    text: str
    size: int
    colour: str = INK
    bold: bool = False
    anchor: str = "start"


Part = Union[Cells, Strokes, Shape, Words]


class Drawing(NamedTuple):
    width: int
    height: int
    title: str
    parts: List[Part]


def width_of(text: str, size: int, bold: bool = False) -> float:
    """Room enough for a text in most fonts without serifs."""
    return len(text) * size * (0.62 if bold else 0.57)


def wrapped(text: str, size: int, bold: bool, room: float) -> List[str]:
    """The text in lines that have room."""
    lines = [""]
    for word in text.split():
        longer = f"{lines[-1]} {word}".lstrip()
        if lines[-1] and width_of(longer, size, bold) > room:
            lines.append(word)
        else:
            lines[-1] = longer
    return lines
