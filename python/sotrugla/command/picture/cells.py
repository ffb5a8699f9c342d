"""One part of the picture: the cells of a view, what is laid over them, and the numbers of columns and rows."""

from __future__ import annotations

from typing import Iterator, List, Sequence

from sotrugla import HiddenBox, Pixel

from .drawing import FAINT, INK, PAPER, Cells, Part, Shape, Strokes, Words
from .flags import is_hidden
from .marks import Frame, arrow, edges, haloed, hatching, outline, ring
from .panels import FROM, Panel
from .views import WRITTEN, View

HATCH = "#7f7f7f"
LINE = "#cc79a7"
# The points that the numbers beside and below the cells take, and their size.
AXIS, FOOT, _NUMBER = 44, 20, 11
_DARK = 128


def drawn(panel: Panel, frame: Frame, line: Sequence[Pixel], boxes: Sequence[HiddenBox]) -> List[Part]:
    """All of it but the names of the marks."""
    seen = [box for box in boxes if frame.view.meets(View(*box))]
    rows = _covered(panel.stage.rows(frame.view), frame.view, seen)
    parts: List[Part] = [Cells(frame.left, frame.top, frame.side, rows)]
    parts += _dots(panel, frame, line)
    for box in seen:
        parts.append(Strokes("hidden", [*hatching(frame, box), *edges(frame, box)], HATCH, 1))
    if panel.box is not None:
        parts += haloed("box", edges(frame, panel.box), FROM.colour, 3)
    if panel.owner is not None:
        parts += haloed("window", outline(frame, panel.window), panel.owner.colour, 3)
    parts += _greys(panel, frame, boxes)
    for role, pixel in panel.marks:
        if frame.view.holds(pixel):
            parts += haloed(role.mark, [ring(role.shape, frame.centre(pixel), frame.side)], role.colour, 3)
    return [*parts, *_arrow(panel, frame), *_numbers(frame)]


def _covered(rows: Sequence[bytes], view: View, boxes: Sequence[HiddenBox]) -> List[bytes]:
    """The rows with white under the boxes that the view meets: no picture shows what they hide."""
    covered = [bytearray(row) for row in rows]
    for box in boxes:
        left, right = max(box.left - view.left, 0), min(box.left + box.width - view.left, view.width)
        for row in range(max(box.top - view.top, 0), min(box.top + box.height - view.top, view.height)):
            covered[row][left:right] = b"\xff" * (right - left)
    return [bytes(row) for row in covered]


def _dots(panel: Panel, frame: Frame, line: Sequence[Pixel]) -> Iterator[Part]:
    """The steps of the line that no window and no mark shows."""
    shown = {*panel.window, *(pixel for _, pixel in panel.marks)}
    reach = max(frame.side / 7, 2)
    for pixel in line:
        if frame.view.holds(pixel) and pixel not in shown:
            x, y = frame.centre(pixel)
            yield Shape("line", [(x - reach, y), (x, y - reach), (x + reach, y), (x, y + reach)], LINE)


def _greys(panel: Panel, frame: Frame, boxes: Sequence[HiddenBox]) -> Iterator[Part]:
    """Written into the pixels of the window, and into those that are marked."""
    pixels = {*panel.window, *(pixel for _, pixel in panel.marks)}
    if frame.side < WRITTEN:
        return
    for pixel in sorted(pixels):
        if frame.view.holds(pixel) and not is_hidden(boxes, pixel):
            x, y = frame.centre(pixel)
            grey, size = panel.stage.grey(pixel), min(round(frame.side * 0.42), 14)
            colour = PAPER if grey * 255 < _DARK * panel.stage.maximum else INK
            yield Words("grey", x, y + size * 0.36, str(grey), size, colour, anchor="middle")


def _arrow(panel: Panel, frame: Frame) -> List[Part]:
    """From the pixel that decides to the one that takes its grey."""
    role, start = panel.marks[-1]
    end = next((pixel for mark, pixel in panel.marks if mark == panel.owner), start)
    if start == end or not (frame.view.holds(start) and frame.view.holds(end)):
        return []
    return arrow("arrow", frame.centre(start), frame.centre(end), frame.side, role.colour)


def _numbers(frame: Frame) -> Iterator[Part]:
    """Of columns below the cells, of rows beside them."""
    view = frame.view
    for column in _told(view.left, view.width, 40 / frame.side):
        x, _ = frame.centre(Pixel(column, view.top))
        yield Words("column", x, frame.bottom + 16, str(column), _NUMBER, FAINT, anchor="middle")
    for row in _told(view.top, view.height, 15 / frame.side):
        _, y = frame.centre(Pixel(view.left, row))
        yield Words("row", frame.left - 9, y + 4, str(row), _NUMBER, FAINT, anchor="end")


def _told(first: int, count: int, apart: float) -> range:
    """Round numbers, at least so far apart."""
    step = next(step for step in (1, 2, 5, 10, 20, 50) if step >= apart)
    return range(-(-first // step) * step, first + count, step)
