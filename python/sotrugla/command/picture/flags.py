"""The names of the pixels that are marked, each on a pole that leads to its pixel."""

from __future__ import annotations

import itertools
from typing import Dict, Iterator, List, NamedTuple, Sequence

from sotrugla import HiddenBox, Pixel

from .drawing import Part, Words, width_of
from .marks import Frame, haloed
from .panels import Panel, Role
from .views import View

# The size of the names, and the points that one takes.
_SIZE, FLAG = 14, 20
# From a pole to its name.
_BESIDE = 5


class Flag(NamedTuple):
    """The names and the grey of a pixel; the last role gives the colour."""

    role: Role
    pixel: Pixel
    text: str

    @property
    def width(self) -> float:
        return width_of(self.text, _SIZE, bold=True) + _BESIDE


def flags(panel: Panel, view: View, boxes: Sequence[HiddenBox]) -> List[Flag]:
    """One for each pixel that is marked in the view; a pixel that is marked twice has both names."""
    roles: Dict[Pixel, List[Role]] = {}
    for role, pixel in panel.marks:
        if view.holds(pixel):
            roles.setdefault(pixel, []).append(role)
    return [Flag(named[-1], pixel, _text(panel, named, pixel, boxes)) for pixel, named in roles.items()]


def _text(panel: Panel, named: Sequence[Role], pixel: Pixel, boxes: Sequence[HiddenBox]) -> str:
    unknown = panel.is_source and is_hidden(boxes, pixel)
    return f"{', '.join(role.name for role in named)}: {'hidden' if unknown else panel.stage.grey(pixel)}"


def is_hidden(boxes: Sequence[HiddenBox], pixel: Pixel) -> bool:
    return any(View(*box).holds(pixel) for box in boxes)


class _Hung(NamedTuple):
    """A flag above the cells: where its pole stands, its row from the highest, and whether it flies to the left."""

    flag: Flag
    pole: float
    row: int
    leftwards: bool

    @property
    def start(self) -> float:
        return self.pole - self.flag.width if self.leftwards else self.pole

    def is_crossed(self, other: _Hung) -> bool:
        """Whether the other's pole goes through its name."""
        return other.row < self.row and self.start <= other.pole <= self.start + self.flag.width


def _hung(named: Sequence[Flag], frame: Frame, left: float, right: float) -> Sequence[_Hung]:
    """Between left and right, so that no pole crosses a name, where that can be. Flags that all fly to the right, the
    leftmost the highest, never cross."""
    plain = sorted(named, key=lambda flag: frame.centre(flag.pixel))
    for ways in itertools.product((False, True), repeat=len(plain)):
        for rows in itertools.permutations(range(len(plain))):
            hung = [_Hung(flag, frame.centre(flag.pixel)[0], *how) for flag, *how in zip(plain, rows, ways)]
            within = all(left <= one.start and one.start + one.flag.width <= right for one in hung)
            if within and not any(one.is_crossed(other) for one in hung for other in hung):
                return hung
    return [_Hung(flag, frame.centre(flag.pixel)[0], row, False) for row, flag in enumerate(plain)]


def reach(named: Sequence[Flag], frame: Frame, left: float, upright: bool) -> float:
    """How far to the right the names go."""
    if upright:
        return frame.right + 20 + max((flag.width for flag in named), default=0)
    return max((one.start + one.flag.width for one in _hung(named, frame, left, frame.right)), default=0)


def above(named: Sequence[Flag], frame: Frame, left: float) -> Iterator[Part]:
    for one in _hung(named, frame, left, frame.right):
        y = frame.centre(one.flag.pixel)[1] - max(frame.side / 2, 6)
        top = frame.top - FLAG * (len(named) - one.row)
        yield from haloed("pole", [[(one.pole, top), (one.pole, y)]], one.flag.role.colour, 1.5)
        yield _words(one.flag, one.start if one.leftwards else one.start + _BESIDE, top + _SIZE)


def beside(named: Sequence[Flag], frame: Frame) -> Iterator[Part]:
    """On the right of the cells, each as high as its pixel or a line below the one above it."""
    base = frame.top - FLAG / 2
    for flag in sorted(named, key=lambda flag: frame.centre(flag.pixel)[1]):
        x, y = frame.centre(flag.pixel)
        base = max(base + FLAG, y)
        pole = [(x + max(frame.side / 2, 6), y), (frame.right + 4.0, y), (frame.right + 12.0, base)]
        yield from haloed("pole", [pole], flag.role.colour, 1.5)
        yield _words(flag, frame.right + 16, base + 5)


def _words(flag: Flag, left: float, base: float) -> Words:
    return Words(flag.role.mark, left, base, flag.text, _SIZE, flag.role.colour, bold=True)
