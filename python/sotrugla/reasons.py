"""Why a pixel comes out as it does."""

from __future__ import annotations

import contextlib
import typing

from .lending import Lent, lent
from .library import answer
from .refusals import HEAD, judged
from .tickets import HiddenBox, Ticket, bytes_of, read_ticket
from .trays import Page, Places, Spot
from .whole import size

if typing.TYPE_CHECKING:
    from _typeshed import ReadableBuffer

# The kinds of reasons; 2 is kept for a later kind of box.
HIDDEN_BOX, ONE_PASS, TWO_PASSES = 1, 3, 4

# The length of an output or a scratch that has room for every page: neither is handed to the library.
_ENDLESS = (1 << 64) - 1

# What a hidden pixel of a tray comes out as; that of a file is its maximum.
_WHITE = 255


class Pixel(typing.NamedTuple):
    """A pixel of a page: its column counted from 0 at the left, its row from 0 at the top."""

    column: int
    row: int

    def __str__(self) -> str:
        return f"column {self.column}, row {self.row}"


class Reason(typing.NamedTuple):
    """Why a pixel comes out as it does; it reads as a sentence for an operator. Its grey is what the pixel comes out
    as. What a kind does not mean is None. Steps are ordered along the vector.

    HIDDEN_BOX: box is the number, from 0, of the first box that holds the pixel, and hidden that box; the pixel comes
    out white, as 255 or as a file's maximum. ONE_PASS, of erosion and dilation: from_ is the first unhidden step of the
    pixel's window whose grey is the result. TWO_PASSES, of opening and closing: through is the first unhidden step of
    the pixel's window in the second pass that gives the result, and from_ the first unhidden step of the window of
    through in the first pass that gave it.
    """

    kind: int
    pixel: Pixel
    grey: int
    phase: typing.Optional[int] = None
    through: typing.Optional[Pixel] = None
    from_: typing.Optional[Pixel] = None
    box: typing.Optional[int] = None
    hidden: typing.Optional[HiddenBox] = None

    def __str__(self) -> str:
        if self.hidden is not None:
            where = ", ".join(f"{name} {value}" for name, value in self.hidden._asdict().items())
            return f"{self.pixel} is white because it is hidden by box {self.box}: {where}"
        decided = f"it is {self.grey} itself" if self.from_ == self.pixel else f"{self.from_} is {self.grey}"
        # Of two passes the way is told, unless it is from_ itself.
        way = "" if self.through in (None, self.from_) else f", by way of {self.through}"
        return f"{self.pixel} is {self.grey} because {decided}{way}"


def why(
    ticket: typing.Union[Ticket, ReadableBuffer],
    page: Page,
    source: ReadableBuffer,
    *,
    column: int,
    row: int,
    spot: typing.Optional[Spot] = None,
    output_length: typing.Optional[int] = None,
    scratch_length: typing.Optional[int] = None,
) -> Reason:
    """Names the reason why a pixel of the source tray's page comes out as it does, without running the job. The ticket
    is a Ticket or its bytes. Raises Refused: what run raises for the job, and then 19 for a pixel off the page.

    A spot and lengths of output and scratch that are not named are those of a job with room for both. The time grows
    with the segment's length for erosion and dilation, with its square for opening and closing.

    >>> ticket, page = Ticket.closing(along=(1, 0), length=3), Page(offset=1, width=5, height=1, stride=5)
    >>> reason = why(ticket, page, bytes([77, 9, 1, 5, 7, 3, 77]), column=1, row=0)
    >>> reason.grey, reason.through, reason.from_
    (7, Pixel(column=2, row=0), Pixel(column=3, row=0))
    >>> print(reason)
    column 1, row 0 is 7 because column 3, row 0 is 7, by way of column 2, row 0
    """
    with lent(source, "the source") as tray:
        return why_lent(ticket, page, tray, pixel_of(column, row), spot, output_length, scratch_length)


def why_lent(
    ticket: typing.Union[Ticket, ReadableBuffer],
    page: Page,
    source: Lent,
    pixel: Pixel,
    spot: typing.Optional[Spot] = None,
    output_length: typing.Optional[int] = None,
    scratch_length: typing.Optional[int] = None,
) -> Reason:
    """As why, where the source is lent already."""
    if spot is None and isinstance(page, Page):
        spot = Spot(page.offset, page.stride)
    places = Places.of(page, spot)
    lengths = _length(output_length, "output_length"), _length(scratch_length, "scratch_length")
    with lent(bytes_of(ticket), "the ticket") as order:
        found = judged(_asked(order, places, source, lengths, pixel), order.first(HEAD), places.judged())
        return _told(found, order, places, source, pixel, _WHITE)


def why_pgm(ticket: typing.Union[Ticket, ReadableBuffer], file: ReadableBuffer, *, column: int, row: int) -> Reason:
    """Names the reason why a pixel of a file's page comes out as it does, which run_pgm filters. Raises Refused: the
    ticket's refusals, then the file's, then 14 and 19.

    >>> ticket = Ticket.closing(along=(1, 0), length=3, hide=[(2, 0, 1, 1)])
    >>> print(why_pgm(ticket, b"P5 3 1 9\\n" + bytes([9, 1, 5]), column=2, row=0))
    column 2, row 0 is white because it is hidden by box 0: left 2, top 0, width 1, height 1
    """
    pixel = pixel_of(column, row)
    with contextlib.ExitStack() as stack:
        order = stack.enter_context(lent(bytes_of(ticket), "the ticket"))
        source = stack.enter_context(lent(file, "the file"))
        shown = answer("sotrugla_read_pgm", *source)
        places = Places(shown.width, shown.height, *[shown.start, shown.width] * 2)
        found = _asked(order, places, source, (_ENDLESS, _ENDLESS), pixel)
        # A refused file has sides of 0: then the ticket is refused if it is to be, and else the sides.
        judged(shown if found.refusal == 10 else found, order.first(HEAD))
        return _told(found, order, places, source, pixel, shown.maximum)


def pixel_of(column: int, row: int) -> Pixel:
    return Pixel(size(column, "column"), size(row, "row"))


def _length(named: typing.Optional[int], name: str) -> int:
    return _ENDLESS if named is None else size(named, name)


def _asked(order: Lent, places: Places, source: Lent, lengths: tuple[int, int], pixel: Pixel) -> typing.Any:
    """The lengths are those of output and scratch."""
    return answer("sotrugla_why", *order, *places, *source, *lengths, *pixel)


def _told(found: typing.Any, order: Lent, places: Places, source: Lent, pixel: Pixel, white: int) -> Reason:
    """An answer that is no refusal: its pixels are on the page, and its box is one of the ticket's."""
    if found.kind == HIDDEN_BOX:
        hidden = read_ticket(order.first(order.length)).boxes[found.box]
        return Reason(found.kind, pixel, white, box=found.box, hidden=hidden)
    through, from_ = Pixel(found.through_column, found.through_row), Pixel(found.from_column, found.from_row)
    grey = source.byte(places.source_offset + from_.row * places.source_stride + from_.column)
    return Reason(found.kind, pixel, grey, found.phase, through if found.kind == TWO_PASSES else None, from_)
