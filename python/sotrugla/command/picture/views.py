"""The part of a page that is shown, and how large its pixels are drawn."""

from __future__ import annotations

import itertools
from typing import Iterable, List, NamedTuple, Optional, Sequence

from sotrugla import Pixel

from .lines import Sides

# The sides of a pixel in the picture, in points: its grid is to be seen, and the page to be known.
SMALLEST, LARGEST = 6, 40
# The side of a pixel that has room for its grey, of one that is easy to see, and of one among many.
WRITTEN, _EASY, _SMALL = 22, 14, 8
# Pixels around those that are named, as many as there is room for: fewer would show no stroke. A single one shows
# nothing by itself, and has more around it.
_MARGINS, _LONELY = (12, 9, 6, 4), (40, 30, 20, 12, 4)
# What is shown around one pixel, where two that are named lie too far apart for one view.
_APART = 15


class View(NamedTuple):
    """A part of a page."""

    left: int
    top: int
    width: int
    height: int

    def holds(self, pixel: Pixel) -> bool:
        return 0 <= pixel.column - self.left < self.width and 0 <= pixel.row - self.top < self.height

    def meets(self, other: View) -> bool:
        """Whether they have a pixel in common."""
        aside = max(self.left, other.left) < min(self.left + self.width, other.left + other.width)
        return aside and max(self.top, other.top) < min(self.top + self.height, other.top + other.height)


class Room(NamedTuple):
    """What one panel may take, in points, if the panels stand side by side and if they stand below each other."""

    beside: Sides
    below: Sides

    def side(self, view: View) -> int:
        """The larger side that a pixel of the view may have, of the two ways."""
        return max(_side(self.beside, view), _side(self.below, view))

    def is_beside(self, view: View) -> bool:
        return _side(self.beside, view) >= min(_side(self.below, view), LARGEST)


def _side(room: Sides, view: View) -> int:
    return min(room.width // view.width, room.height // view.height)


def around(pixels: Iterable[Pixel], aside: int, above: int, sides: Sides) -> View:
    """The part of the page that has all these pixels in it, with others on both sides of them, above and below."""
    columns, rows = zip(*pixels)
    left, top = max(min(columns) - aside, 0), max(min(rows) - above, 0)
    right, bottom = min(max(columns) + aside + 1, sides.width), min(max(rows) + above + 1, sides.height)
    return View(left, top, right - left, bottom - top)


class Shown(NamedTuple):
    """The view of each panel, and what is said of what they leave out."""

    views: Sequence[View]
    note: str


def shown(named: Sequence[Sequence[Pixel]], outlined: Sequence[Pixel], sides: Sides, room: Room) -> Shown:
    """One view of all that is named and outlined, if it has room; else one of what is named; else one for each panel,
    around the last pixel that it names."""
    every = [pixel for pixels in named for pixel in pixels]
    whole, close = _widest([*every, *outlined], sides, room), _widest(every, sides, room)
    if whole:
        return Shown([whole] * len(named), "")
    if close:
        return Shown([close] * len(named), "What is outlined goes on beyond what is shown.")
    apart: List[View] = [around([pixels[-1]], _APART, _APART, sides) for pixels in named]
    return Shown(apart, "The named pixels lie far apart: each part shows what is around the one that decides there.")


def _widest(pixels: Sequence[Pixel], sides: Sides, room: Room) -> Optional[View]:
    """The view of these pixels with most around them that leaves their greys or at least themselves easy to see, if
    they have room at all."""
    lonely = len({*pixels}) == 1
    margins = _LONELY if lonely else _MARGINS
    best = room.side(around(pixels, margins[-1], margins[-1], sides))
    least = min(best, _SMALL if lonely else WRITTEN if best >= WRITTEN else _EASY)
    pairs = sorted(itertools.product(margins, margins), key=sum, reverse=True)
    views = [around(pixels, *pair, sides) for pair in pairs]
    return next(view for view in views if room.side(view) >= least) if best >= SMALLEST else None
