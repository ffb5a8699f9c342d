"""The lines of a page, for a picture of them: where the steps of a line land, and the windows of each pass. The proved
library is not asked: the tests hold this to it."""

from __future__ import annotations

from typing import Iterator, List, NamedTuple, Sequence

from sotrugla import CLOSE, DILATE, ERODE, OPEN, PERIODIC, Pixel, Ticket


class Sides(NamedTuple):
    """Of a page."""

    width: int
    height: int

    def hold(self, pixel: Pixel) -> bool:
        return 0 <= pixel.column < self.width and 0 <= pixel.row < self.height


_PASSES = {ERODE: [ERODE], DILATE: [DILATE], OPEN: [ERODE, DILATE], CLOSE: [DILATE, ERODE]}


def passes(operation: int) -> Sequence[int]:
    """The erosions and dilations that make an operation, in their order."""
    return _PASSES[operation]


def is_shallow(ticket: Ticket) -> bool:
    return ticket.dx >= 1 and abs(ticket.dy) <= ticket.dx


def step(ticket: Ticket, pixel: Pixel, count: int) -> Pixel:
    """The pixel so many steps along its line, or behind where the count is below 0; it may be off the page."""
    if ticket.line == PERIODIC:
        return Pixel(pixel.column + count * ticket.dx, pixel.row + count * ticket.dy)
    if is_shallow(ticket):
        start = pixel.column + ticket.phase
        moved = _nearest(start + count, ticket.dx, ticket.dy) - _nearest(start, ticket.dx, ticket.dy)
        return Pixel(pixel.column + count, pixel.row + moved)
    start = pixel.row + ticket.phase
    moved = _nearest(start + count, ticket.dy, ticket.dx) - _nearest(start, ticket.dy, ticket.dx)
    return Pixel(pixel.column + moved, pixel.row + count)


def _nearest(at: int, major: int, minor: int) -> int:
    """D: the row closest to the true line at a column. It takes the sign of the minor component and rounds the size
    with ties away from zero."""
    size = (2 * at * abs(minor) + major) // (2 * major)
    return -size if minor < 0 else size


def window(ticket: Ticket, operation: int, pixel: Pixel, sides: Sides) -> List[Pixel]:
    """The steps on the page of the pixel's window in an erosion or a dilation, in their order along the line; hidden
    ones are among them."""
    behind, ahead = ticket.origin, ticket.length - 1 - ticket.origin
    if operation == DILATE:
        behind, ahead = ahead, behind
    steps = (step(ticket, pixel, count) for count in range(-behind, ahead + 1))
    return [at for at in steps if sides.hold(at)]


def line(ticket: Ticket, pixel: Pixel, sides: Sides) -> List[Pixel]:
    """All steps on the page of the pixel's line, in their order."""
    return [*reversed([*_walk(ticket, pixel, sides, -1)]), pixel, *_walk(ticket, pixel, sides, 1)]


def _walk(ticket: Ticket, pixel: Pixel, sides: Sides, way: int) -> Iterator[Pixel]:
    """The next steps up to the page's edge: a line that left the page never comes back."""
    count = way
    while sides.hold(step(ticket, pixel, count)):
        yield step(ticket, pixel, count)
        count += way
