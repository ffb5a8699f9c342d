"""Job tickets: built, encoded, and read by the proved reader."""

from __future__ import annotations

import ctypes
import dataclasses
import typing

from .lending import lent
from .library import answer
from .refusals import HEAD, judged
from .whole import placed, size, whole

if typing.TYPE_CHECKING:
    from _typeshed import ReadableBuffer

ERODE, DILATE, OPEN, CLOSE = 1, 2, 3, 4
CONNECTED, PERIODIC = 1, 2

# What the builders of tickets, and the filters of arrays, take by name.
Vector = typing.Tuple[int, int]
Origin = typing.Union[int, typing.Literal["centre"]]
Boxes = typing.Iterable[typing.Tuple[int, int, int, int]]


class HiddenBox(typing.NamedTuple):
    """A box whose pixels are hidden: no result depends on them, and they come out white."""

    left: int
    top: int
    width: int
    height: int


@dataclasses.dataclass(init=False)
class Ticket:
    """A ticket to be encoded, or as read. Its origin is the segment's step 0 unless said otherwise; erosion, dilation,
    opening and closing build tickets whose origin is the segment's middle.

    Rising and falling lines are mirror images: for a page and boxes flipped top to bottom with dy negated (left to
    right with dx negated where the vector is steep), the result is the flipped result, and the work is the same.

    Whether its values are allowed is for the proved reader to say; a value that has no place in its field raises
    OverflowError at encoding, and what is no whole number TypeError.

    >>> Ticket(ERODE, CONNECTED, dx=5, dy=3, length=51, origin=25) == Ticket.erosion(along=(5, 3), length=51)
    True
    """

    operation: int
    line: int
    dx: int
    dy: int
    length: int
    origin: int
    phase: int
    boxes: list[HiddenBox]

    # Written out, as dataclasses have had fields by name alone only since Python 3.10.
    def __init__(
        self,
        operation: int,
        line: int,
        *,
        dx: int,
        dy: int,
        length: int,
        origin: int = 0,
        phase: int = 0,
        boxes: Boxes = (),
    ) -> None:
        self.operation, self.line = operation, line
        self.dx, self.dy = dx, dy
        self.length, self.origin, self.phase = length, origin, phase
        self.boxes = [_box(box, number) for number, box in enumerate(boxes)]

    @classmethod
    def erosion(
        cls,
        *,
        along: Vector,
        length: int,
        origin: Origin = "centre",
        periodic: bool = False,
        phase: int = 0,
        hide: Boxes = (),
    ) -> Ticket:
        """Orders the minimum over a segment along the vector (dx, dy): dark strokes grow."""
        return cls._along(ERODE, along, length, origin, periodic, phase, hide)

    @classmethod
    def dilation(
        cls,
        *,
        along: Vector,
        length: int,
        origin: Origin = "centre",
        periodic: bool = False,
        phase: int = 0,
        hide: Boxes = (),
    ) -> Ticket:
        """Orders the maximum over a segment along the vector (dx, dy): dark strokes shrink."""
        return cls._along(DILATE, along, length, origin, periodic, phase, hide)

    @classmethod
    def opening(
        cls,
        *,
        along: Vector,
        length: int,
        origin: Origin = "centre",
        periodic: bool = False,
        phase: int = 0,
        hide: Boxes = (),
    ) -> Ticket:
        """Orders an erosion and then a dilation: light gaps shorter than the segment go."""
        return cls._along(OPEN, along, length, origin, periodic, phase, hide)

    @classmethod
    def closing(
        cls,
        *,
        along: Vector,
        length: int,
        origin: Origin = "centre",
        periodic: bool = False,
        phase: int = 0,
        hide: Boxes = (),
    ) -> Ticket:
        """Orders a dilation and then an erosion: dark strokes shorter than the segment go."""
        return cls._along(CLOSE, along, length, origin, periodic, phase, hide)

    @classmethod
    def _along(
        cls, operation: int, along: Vector, length: int, origin: Origin, periodic: bool, phase: int, hide: Boxes
    ) -> Ticket:
        try:
            dx, dy = along
        except (TypeError, ValueError):
            raise TypeError(f"along is {along!r}, not a vector (dx, dy)") from None
        line = PERIODIC if periodic else CONNECTED
        step = _step(origin, length)
        return cls(operation, line, dx=dx, dy=dy, length=length, origin=step, phase=phase, boxes=hide)

    def hide(self, *, left: int, top: int, width: int, height: int) -> Ticket:
        """Hides one more box, of at most 64."""
        self.boxes.append(HiddenBox(left, top, width, height))
        return self

    def encode(self) -> bytes:
        """The ticket's bytes."""
        fields = [
            _field(1, placed(self.operation, "operation", 8)),
            _field(2, placed(self.line, "line", 8)),
            _field(3, placed(self.dx, "dx", 16, signed=True), placed(self.dy, "dy", 16, signed=True)),
            _field(4, placed(self.length, "length", 16)),
            _field(5, placed(self.origin, "origin", 16)),
            _field(6, placed(self.phase, "phase", 16)),
        ]
        return b"".join(fields + [_box_field(box, number) for number, box in enumerate(self.boxes)])


def middle(length: int) -> int:
    """The step in the middle of a segment."""
    return whole(length, "length") // 2


def _step(origin: Origin, length: int) -> int:
    """The step of the segment that is its origin."""
    if not isinstance(origin, str):
        return origin
    if origin != "centre":
        raise ValueError(f"origin is {origin!r}, neither a step of the segment nor 'centre'")
    return middle(length)


def _box(box: typing.Tuple[int, int, int, int], number: int) -> HiddenBox:
    try:
        return HiddenBox(*box)
    except TypeError:
        raise TypeError(f"box {number} is {box!r}, not (left, top, width, height)") from None


def _box_field(box: typing.Tuple[int, int, int, int], number: int) -> bytes:
    named = _box(box, number)._asdict().items()
    return _field(7, *(placed(value, f"{name} of box {number}", 16) for name, value in named))


def _field(tag: int, *values: bytes) -> bytes:
    """A tag, a length and a value."""
    value = b"".join(values)
    return bytes([tag]) + len(value).to_bytes(2, "big") + value


def bytes_of(ticket: typing.Union[Ticket, ReadableBuffer]) -> ReadableBuffer:
    """The bytes of a ticket that may be encoded already."""
    return ticket.encode() if isinstance(ticket, Ticket) else ticket


# Eight numbers, and four for each of 64 box places.
_NUMBERS = 8 + 4 * 64


def read_ticket(ticket: ReadableBuffer) -> Ticket:
    """The ticket alone, read from its bytes. Raises Refused, 1 to 9. Its boxes are not held to a page.

    >>> read_ticket(Ticket(ERODE, CONNECTED, dx=3, dy=-2, length=7, origin=3).encode()).dy
    -2
    """
    numbers = (ctypes.c_int64 * _NUMBERS)()
    with lent(ticket, "the ticket") as order:
        judged(answer("sotrugla_read_ticket", *order, numbers, _NUMBERS), order.first(HEAD))
    operation, line, dx, dy, length, origin, phase, count = numbers[:8]
    boxes = [HiddenBox(*numbers[8 + 4 * k : 12 + 4 * k]) for k in range(count)]
    return Ticket(operation, line, dx=dx, dy=dy, length=length, origin=origin, phase=phase, boxes=boxes)


def is_hidden(ticket: typing.Union[Ticket, ReadableBuffer], *, column: int, row: int) -> bool:
    """Whether a box of the ticket, a Ticket or its bytes, holds the pixel: such a pixel comes out white in every
    finished page. A refused ticket hides nothing, and boxes are not held to a page. Each call reads the whole ticket.

    >>> ticket = Ticket(ERODE, CONNECTED, dx=1, dy=0, length=2).hide(left=6, top=3, width=2, height=1)
    >>> is_hidden(ticket, column=7, row=3), is_hidden(ticket, column=3, row=7)
    (True, False)
    """
    with lent(bytes_of(ticket), "the ticket") as order:
        return answer("sotrugla_is_hidden", *order, size(column, "column"), size(row, "row")) != 0
