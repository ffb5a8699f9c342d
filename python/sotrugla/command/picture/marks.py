"""The outlines that are laid over a page: around windows and pixels, across hidden boxes, and arrows."""

from __future__ import annotations

import math
from typing import Collection, List, NamedTuple, Sequence, Tuple

from sotrugla import HiddenBox, Pixel

from .drawing import PAPER, Part, Point, Shape, Strokes
from .views import View

# By the way to its neighbour, the corners at both ends of a pixel's side.
_SIDES = {
    (0, -1): ((0, 0), (1, 0)),
    (0, 1): ((0, 1), (1, 1)),
    (-1, 0): ((0, 0), (0, 1)),
    (1, 0): ((1, 0), (1, 1)),
}
# Points between the strokes of a hatching, and from an arrow's point to its end.
_HATCHING, _HEAD = 9, 12


class Frame(NamedTuple):
    """Where a view stands in the picture, and the side of its pixels."""

    view: View
    left: int
    top: int
    side: int

    @property
    def right(self) -> int:
        return self.left + self.view.width * self.side

    @property
    def bottom(self) -> int:
        return self.top + self.view.height * self.side

    def corner(self, column: int, row: int) -> Point:
        """The upper left one of a pixel, on the view or beyond it."""
        return self.left + (column - self.view.left) * self.side, self.top + (row - self.view.top) * self.side

    def centre(self, pixel: Pixel) -> Point:
        x, y = self.corner(*pixel)
        return x + self.side / 2, y + self.side / 2


def haloed(name: str, lines: Sequence[Sequence[Point]], colour: str, width: float) -> List[Part]:
    """Strokes with paper on both sides of them, to be seen on dark and on light greys."""
    return [Strokes("halo", lines, PAPER, width + 2), Strokes(name, lines, colour, width)]


def outline(frame: Frame, pixels: Collection[Pixel]) -> List[List[Point]]:
    """The edges around pixels: none between two of them."""
    inside = {pixel for pixel in pixels if frame.view.holds(pixel)}
    return [
        [frame.corner(column + x, row + y) for x, y in ends]
        for column, row in sorted(inside)
        for (right, down), ends in _SIDES.items()
        if (column + right, row + down) not in inside
    ]


def ring(shape: str, centre: Point, side: int) -> List[Point]:
    """A closed line around a pixel, large enough to be seen around a small one."""
    corners, turned, reach = {
        "square": (4, 45, 0.71 * max(side + 4, 12)),
        "diamond": (4, 0, max(0.66 * side, 11)),
        "circle": (32, 0, max(0.56 * side, 9)),
    }[shape]
    angles = [math.radians(turned + 360 * number / corners) for number in range(corners + 1)]
    return [(centre[0] + reach * math.cos(angle), centre[1] + reach * math.sin(angle)) for angle in angles]


def arrow(name: str, start: Point, end: Point, side: int, colour: str) -> List[Part]:
    """A bow from point to point, which leaves the straight line between them free. It bends down, or to the left where
    it goes up and down."""
    across, down = end[0] - start[0], end[1] - start[1]
    length, reach = math.hypot(across, down), max(0.6 * side, 10)
    # Far enough to be seen beside the marks of two neighbours, and not so far that it leaves the view.
    bend = max(min(length / 3, 3.4 * side, 60), reach + 8)
    aside = (-down / length * bend, across / length * bend)
    if (aside[1] < 0) if abs(across) >= abs(down) else (aside[0] > 0):
        aside = (-aside[0], -aside[1])
    middle = ((start[0] + end[0]) / 2 + 2 * aside[0], (start[1] + end[1]) / 2 + 2 * aside[1])
    bow = [_on_bow(start, middle, end, at / 64) for at in range(65)]
    # What the marks around both pixels leave of it.
    free = [point for point in bow if min(math.dist(point, start), math.dist(point, end)) > reach]
    return [*haloed(name, [free], colour, 3), Shape(name, _head(free[-2], free[-1]), colour)]


def _on_bow(start: Point, middle: Point, end: Point, part: float) -> Point:
    """A point of the quadratic curve."""
    weights = ((1 - part) ** 2, 2 * part * (1 - part), part**2)
    points = (start, middle, end)
    return tuple(sum(weight * point[axis] for weight, point in zip(weights, points)) for axis in (0, 1))


def _head(before: Point, tip: Point) -> List[Point]:
    """The triangle at an arrow's end."""
    towards = math.atan2(tip[1] - before[1], tip[0] - before[0])
    ahead = (tip[0] + 3 * math.cos(towards), tip[1] + 3 * math.sin(towards))
    wings = [towards + turn for turn in (2.7, -2.7)]
    return [ahead, *((ahead[0] + _HEAD * math.cos(wing), ahead[1] + _HEAD * math.sin(wing)) for wing in wings)]


def hatching(frame: Frame, box: HiddenBox) -> List[List[Point]]:
    """Slanted strokes over a box, as far as the view shows it."""
    left, top, right, bottom = _seen(frame, box)
    strokes = []
    for at in range(math.ceil((left + top) / _HATCHING) * _HATCHING, math.ceil(right + bottom), _HATCHING):
        start, end = max(left, at - bottom), min(right, at - top)
        strokes.append([(start, at - start), (end, at - end)])
    return strokes


def edges(frame: Frame, box: HiddenBox) -> List[List[Point]]:
    """Those of a box that the view shows: where it goes on, it has none."""
    view, (left, top, right, bottom) = frame.view, _seen(frame, box)
    sides = [
        (box.left >= view.left, [(left, top), (left, bottom)]),
        (box.top >= view.top, [(left, top), (right, top)]),
        (box.left + box.width <= view.left + view.width, [(right, top), (right, bottom)]),
        (box.top + box.height <= view.top + view.height, [(left, bottom), (right, bottom)]),
    ]
    return [side for shown, side in sides if shown]


def _seen(frame: Frame, box: HiddenBox) -> Tuple[float, float, float, float]:
    """Where a box that meets the view is seen."""
    left, top = frame.corner(box.left, box.top)
    right, bottom = frame.corner(box.left + box.width, box.top + box.height)
    return max(left, frame.left), max(top, frame.top), min(right, frame.right), min(bottom, frame.bottom)
