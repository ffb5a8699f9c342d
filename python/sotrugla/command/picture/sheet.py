"""The whole picture: the sentence, the panels side by side or below each other, and what the marks mean."""

from __future__ import annotations

import os
from typing import Iterator, List, NamedTuple, Sequence, Tuple

from sotrugla import CONNECTED, HiddenBox, Pixel, Reason, Ticket

from ..along import angle_of
from ..faults import shown as in_one_line
from ..files import STANDARD
from ..words import word_of
from . import cells, flags
from .drawing import FAINT, INK, Drawing, Part, Words, wrapped
from .legend import Strip, legend
from .lines import Sides, is_shallow, line, passes
from .marks import Frame
from .panels import Panel, panels
from .views import LARGEST, Room, View, shown

EDGE, GAP = 24, 28
# What all panels together may take, in points: a screen.
_MOST = Sides(1440, 1000)
# The least width of a panel and of the whole, for titles and the sentence.
_NARROW, _NARROWEST = 330, 740
# The sizes of letters, and from line to line.
_SENTENCE, _TITLE, _PLAIN, _SPACING = 19, 15, 13, 1.4
# The flags of one panel, at most, and the points that their names mostly take beside it.
_FLAGS, _NAMES = 3, 160


class Texts(NamedTuple):
    """Lines below each other."""

    name: str
    lines: Sequence[str]
    size: int
    bold: bool = False
    colour: str = INK

    @property
    def height(self) -> int:
        return round(len(self.lines) * self.size * _SPACING)

    def at(self, left: float, top: float) -> Iterator[Part]:
        for number, text in enumerate(self.lines):
            base = top + (number * _SPACING + 1) * self.size
            yield Words(self.name, left, base, text, self.size, self.colour, self.bold)


class Slot(NamedTuple):
    """A panel with its title above it. Upright, the line is steep, and the flags stand beside the cells; else hung is
    the room for so many above them."""

    panel: Panel
    view: View
    side: int
    boxes: Sequence[HiddenBox]
    upright: bool
    titles: Sequence[Texts]
    hung: int

    def frame(self, left: int, top: int) -> Frame:
        return Frame(self.view, left + cells.AXIS, top + self._above(), self.side)

    def _above(self) -> int:
        return sum(texts.height for texts in self.titles) + flags.FLAG * self.hung + 4

    def _flags(self) -> List[flags.Flag]:
        return flags.flags(self.panel, self.view, self.boxes)

    @property
    def width(self) -> int:
        frame = self.frame(0, 0)
        return max(frame.right, round(flags.reach(self._flags(), frame, 0, self.upright)), _NARROW)

    @property
    def height(self) -> int:
        return self.frame(0, 0).bottom + cells.FOOT

    def drawn(self, left: int, top: int, steps: Sequence[Pixel]) -> Iterator[Part]:
        frame, below = self.frame(left, top), top
        for texts in self.titles:
            yield from texts.at(left, below)
            below += texts.height
        yield from cells.drawn(self.panel, frame, steps, self.boxes)
        yield from flags.beside(self._flags(), frame) if self.upright else flags.above(self._flags(), frame, left)


def drawing(name: str, file: bytes, ticket: Ticket, reason: Reason) -> Drawing:
    """Of the reason of a pixel of the P5 file, which an operator knows by its name."""
    told, upright = panels(file, ticket, reason), not is_shallow(ticket)
    sides, room = told[0].stage.sides, _room(len(told), upright)
    views, note = shown([_pixels(one) for one in told], _outlined(told, reason), sides, room)
    boxes = [box for box in ticket.boxes if any(view.meets(View(*box)) for view in views)]
    beside = room.is_beside(views[0])
    slots = _slots(told, views, min(LARGEST, *(room.side(view) for view in views)), boxes, upright, beside)
    places, width, height = _placed(slots, beside)
    parts, top = [], EDGE
    for texts in _head(name, sides, ticket, reason, width):
        parts += texts.at(EDGE, top)
        top += texts.height
    top += GAP // 2
    steps = [] if reason.hidden else line(ticket, reason.pixel, sides)
    for slot, (right, down) in zip(slots, places):
        parts += slot.drawn(EDGE + right, top + down, steps)
    foot, bottom = legend(reason, passes(ticket.operation), boxes, note, Strip(EDGE, top + height + GAP, width))
    return Drawing(width + 2 * EDGE, bottom + EDGE, str(reason), [*parts, *foot])


def _room(count: int, upright: bool) -> Room:
    """For the cells of each panel: what stands around them is taken off. Below each other they have titles of one line
    less."""
    aside = cells.AXIS + GAP + (_NAMES if upright else 0)
    above = round((_TITLE + 2 * _PLAIN) * _SPACING) + cells.FOOT + GAP + (0 if upright else flags.FLAG * _FLAGS)
    beside = Sides(_MOST.width // count - aside, _MOST.height - above)
    return Room(beside, Sides(_MOST.width - aside, _MOST.height // count - above + _PLAIN))


def _slots(
    told: Sequence[Panel], views: Sequence[View], side: int, boxes: Sequence[HiddenBox], upright: bool, beside: bool
) -> List[Slot]:
    """Side by side they stand in line: their titles and flags take as many lines as those that take most."""
    widths = [max(cells.AXIS + view.width * side, _NARROW) for view in views]
    said = [wrapped(one.told, _PLAIN, False, width) for one, width in zip(told, widths)]
    hung = [0 if upright else len(flags.flags(one, view, boxes)) for one, view in zip(told, views)]
    if beside:
        said = [[*texts, *[""] * (max(map(len, said)) - len(texts))] for texts in said]
        hung = [max(hung)] * len(hung)
    titles = [Texts("title", [one.title], _TITLE, bold=True) for one in told]
    heads = [[title, Texts("told", texts, _PLAIN)] for title, texts in zip(titles, said)]
    return [Slot(one, view, side, boxes, upright, *more) for one, view, *more in zip(told, views, heads, hung)]


def _pixels(one: Panel) -> List[Pixel]:
    return [pixel for _, pixel in one.marks]


def _outlined(told: Sequence[Panel], reason: Reason) -> List[Pixel]:
    """The pixels of the windows, or corners of the box."""
    if reason.hidden is None:
        return [pixel for one in told for pixel in one.window]
    left, top, width, height = reason.hidden
    return [Pixel(left, top), Pixel(left + width - 1, top + height - 1)]


def _placed(slots: Sequence[Slot], beside: bool) -> Tuple[List[Tuple[int, int]], int, int]:
    """How far to the right and down each stands, and the width and the height of all."""
    places, right, down = [], 0, 0
    for slot in slots:
        places.append((right, down))
        right, down = (right + slot.width + GAP, down) if beside else (right, down + slot.height + GAP)
    widths, heights = [slot.width for slot in slots], [slot.height for slot in slots]
    width, height = (right - GAP, max(heights)) if beside else (max(widths), down - GAP)
    return places, max(width, _NARROWEST), height


def _head(name: str, sides: Sides, ticket: Ticket, reason: Reason, width: int) -> List[Texts]:
    """The sentence, and the order and the page that it is about."""
    kind = "connected" if ticket.line == CONNECTED else "periodic"
    phase = f", phase {ticket.phase}" if ticket.phase else ""
    vector = f"{kind} line {ticket.dx},{ticket.dy} ({angle_of(ticket.dx, ticket.dy):.2f}deg){phase}"
    order = f"{word_of(ticket.operation)} along a {vector}, length {ticket.length}, origin {ticket.origin}"
    page = "standard input" if name == STANDARD else in_one_line(os.path.basename(name))
    about = f"{page}, {sides.width} by {sides.height} pixels; {order}"
    sentence = str(reason)[0].upper() + f"{reason}."[1:]
    return [
        Texts("sentence", wrapped(sentence, _SENTENCE, True, width), _SENTENCE, bold=True),
        Texts("order", wrapped(about, _PLAIN, False, width), _PLAIN, colour=FAINT),
    ]
