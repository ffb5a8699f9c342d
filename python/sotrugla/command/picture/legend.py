"""What the marks of a picture mean."""

from __future__ import annotations

from typing import Callable, List, NamedTuple, Sequence, Tuple

from sotrugla import HiddenBox, Reason

from ..words import word_of
from .cells import HATCH, LINE
from .drawing import FAINT, Part, Point, Shape, Strokes, Words, width_of
from .marks import ring
from .panels import ASKED, FROM, THROUGH, Role

# The size of its letters, from line to line, and the room of a sign.
_SIZE, _LINE, _SIGN = 13, 24, 30


class Entry(NamedTuple):
    """A sign, drawn around a point, and its meaning."""

    sign: Callable[[Point], Sequence[Part]]
    text: str

    @property
    def width(self) -> float:
        return _SIGN + width_of(self.text, _SIZE) + 16


class Strip(NamedTuple):
    """Where it begins, and how wide it may be."""

    left: int
    top: int
    width: int


def legend(
    reason: Reason, done: Sequence[int], boxes: Sequence[HiddenBox], note: str, strip: Strip
) -> Tuple[List[Part], int]:
    """Of a reason by these passes in a picture that shows these boxes; and where it ends below."""
    parts: List[Part] = []
    x, y = float(strip.left), strip.top
    for entry in _entries(reason, done, boxes):
        if x > strip.left and x + entry.width > strip.left + strip.width:
            x, y = strip.left, y + _LINE
        parts += entry.sign((x + _SIGN / 2 - 3, y))
        parts.append(Words("legend", x + _SIGN, y + 5, entry.text, _SIZE))
        x += entry.width
    if note:
        y += _LINE
        parts.append(Words("note", strip.left, y + 5, note, _SIZE, FAINT, bold=True))
    return parts, y + _LINE // 2


def _entries(reason: Reason, done: Sequence[int], boxes: Sequence[HiddenBox]) -> List[Entry]:
    entries = [Entry(_ring(ASKED), f"asked: {reason.pixel}")]
    if reason.through is not None:
        entries.append(Entry(_ring(THROUGH), f"by way of: {reason.through}"))
    if reason.from_ is not None:
        entries.append(Entry(_ring(FROM), f"from: {reason.from_}, which decides"))
        owners = zip([THROUGH, ASKED][-len(done) :], done)
        entries += [Entry(_outline(role), f"window of the {role.shape} ({word_of(one)})") for role, one in owners]
        entries.append(Entry(_dots, "the line"))
    if reason.hidden is not None:
        entries.append(Entry(_outline(FROM), f"box {reason.box}, which decides"))
    if boxes:
        entries.append(Entry(_hatch, "hidden"))
    return entries


def _ring(role: Role) -> Callable[[Point], Sequence[Part]]:
    return lambda at: [Strokes("legend", [ring(role.shape, at, 10)], role.colour, 3)]


def _outline(role: Role) -> Callable[[Point], Sequence[Part]]:
    def sign(at: Point) -> Sequence[Part]:
        x, y = at
        corners = [(x - 12, y - 5), (x + 12, y - 5), (x + 12, y + 5), (x - 12, y + 5), (x - 12, y - 5)]
        return [Strokes("legend", [corners], role.colour, 3)]

    return sign


def _dots(at: Point) -> Sequence[Part]:
    x, y = at
    places = [(x + shift, y) for shift in (-8, 0, 8)]
    return [Shape("legend", [(x - 3, y), (x, y - 3), (x + 3, y), (x, y + 3)], LINE) for x, y in places]


def _hatch(at: Point) -> Sequence[Part]:
    x, y = at
    corners = [(x - 12, y - 7), (x + 12, y - 7), (x + 12, y + 7), (x - 12, y + 7), (x - 12, y - 7)]
    strokes = [[(x + shift - 7, y + 7), (x + shift + 7, y - 7)] for shift in (-5, 0, 5)]
    return [Strokes("legend", [corners, *strokes], HATCH, 1)]
