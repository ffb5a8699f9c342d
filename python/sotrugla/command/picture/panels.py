"""What the parts of a picture show: the page before, between two passes and after, each with the pixels that are named
and the window that decides."""

from __future__ import annotations

import dataclasses
from typing import List, NamedTuple, Optional, Sequence, Tuple

import sotrugla
from sotrugla import ERODE, HIDDEN_BOX, TWO_PASSES, HiddenBox, Pixel, Reason, Ticket

from ..images import up_to_white
from ..words import word_of
from .lines import Sides, passes, window
from .views import View


class Role(NamedTuple):
    """What a pixel is named for. The colours are told apart by all eyes (Okabe and Ito), the shapes without colour."""

    name: str
    mark: str
    shape: str
    colour: str


ASKED = Role("asked", "asked", "square", "#009e73")
THROUGH = Role("by way of", "through", "diamond", "#0072b2")
FROM = Role("from", "from", "circle", "#d55e00")


class Stage(NamedTuple):
    """A page as it stands at one time, its pixels row by row."""

    sides: Sides
    maximum: int
    pixels: bytes

    @classmethod
    def read(cls, file: bytes) -> Stage:
        shown = sotrugla.read_pgm(file)
        pixels = file[shown.start : shown.start + shown.width * shown.height]
        return cls(Sides(shown.width, shown.height), shown.maximum, pixels)

    def grey(self, pixel: Pixel) -> int:
        return self.pixels[pixel.row * self.sides.width + pixel.column]

    def rows(self, view: View) -> List[bytes]:
        """What a view shows, with 255 for white."""
        starts = range(view.top * self.sides.width + view.left, len(self.pixels), self.sides.width)
        rows = [self.pixels[start : start + view.width] for start in starts[: view.height]]
        return [up_to_white(row, self.maximum) for row in rows]


class Panel(NamedTuple):
    """A page with its marks, the last of which decides there, or the box that does. The owner is the role of the pixel
    that the window is of, to which the deciding grey goes."""

    title: str
    told: str
    stage: Stage
    marks: Sequence[Tuple[Role, Pixel]]
    window: Sequence[Pixel] = ()
    owner: Optional[Role] = None
    box: Optional[HiddenBox] = None
    is_source: bool = False


def panels(file: bytes, ticket: Ticket, reason: Reason) -> List[Panel]:
    """The page of a P5 file before and after, and between the passes where there are two."""
    before, after = Stage.read(file), Stage.read(sotrugla.run_pgm(ticket, file).file)
    asked = [(ASKED, reason.pixel)]
    last = Panel("AFTER", "the finished page", after, asked)
    if reason.kind == HIDDEN_BOX:
        covered = "what lies under a box is not shown here either"
        return [
            Panel("BEFORE", covered, before, asked, box=reason.hidden, is_source=True),
            last._replace(box=reason.hidden),
        ]
    words = [_told(operation) for operation in passes(ticket.operation)]
    whole = window(ticket, passes(ticket.operation)[-1], reason.pixel, before.sides)
    if reason.kind != TWO_PASSES:
        named, said = [*asked, (FROM, reason.from_)], f"{words[0]} of the square's window"
        return [Panel("BEFORE", said, before, named, whole, ASKED, is_source=True), last]
    one = passes(ticket.operation)[0]
    between = Stage.read(sotrugla.run_pgm(dataclasses.replace(ticket, operation=one), file).file)
    way = [*asked, (THROUGH, reason.through)]
    named, first = [*way, (FROM, reason.from_)], window(ticket, one, reason.through, before.sides)
    said = [f"first pass: {words[0]} of the diamond's window", f"second pass: {words[1]} of the square's window"]
    return [
        Panel("BEFORE", said[0], before, named, first, THROUGH, is_source=True),
        Panel("BETWEEN THE PASSES", said[1], between, way, whole, ASKED),
        last,
    ]


def _told(operation: int) -> str:
    return f"{word_of(operation)} takes the {'darkest' if operation == ERODE else 'lightest'}"
