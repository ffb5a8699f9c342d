"""Pages in trays of bytes: where they stand, and the job that filters one into another tray."""

from __future__ import annotations

import contextlib
import typing

from .lending import Lent, lent, lent_to_write, see_apart
from .library import answer
from .refusals import HEAD, Placements, judged
from .tickets import Ticket, bytes_of
from .whole import size

if typing.TYPE_CHECKING:
    from _typeshed import ReadableBuffer, WriteableBuffer


class Page(typing.NamedTuple):
    """A page in a tray: the pixel at column c, row r is byte offset + r * stride + c."""

    offset: int
    width: int
    height: int
    stride: int


class Spot(typing.NamedTuple):
    """Where a page of known sides stands in a tray."""

    offset: int
    stride: int


def scratch_needed(width: int, height: int) -> int:
    """The bytes of scratch that a page of these sides needs; 0 where a side is not 1 to 8192."""
    return answer("sotrugla_scratch_needed", size(width, "width"), size(height, "height"))


def run(
    ticket: typing.Union[Ticket, ReadableBuffer],
    page: Page,
    source: ReadableBuffer,
    spot: Spot,
    output: WriteableBuffer,
    scratch: typing.Optional[WriteableBuffer] = None,
) -> int:
    """Filters the page of the source tray into the output tray, where it stands at the spot, and answers the work: how
    many comparisons it took. The ticket is a Ticket or its bytes. Raises Refused; then nothing was written.

    Nothing but the page is written to the output. The scratch that the page needs holds zero after a finished page;
    without a scratch one is made. What output and scratch held before changes nothing.
    """
    with lent(source, "the source") as tray:
        work = run_lent(ticket, page, tray, spot, output, scratch)
    return work


def run_lent(
    ticket: typing.Union[Ticket, ReadableBuffer],
    page: Page,
    source: Lent,
    spot: Spot,
    output: WriteableBuffer,
    scratch: typing.Optional[WriteableBuffer] = None,
) -> int:
    """As run, where the source is lent already."""
    places = Places.of(page, spot)
    if scratch is None:
        scratch = bytearray(scratch_needed(places.width, places.height))
    with contextlib.ExitStack() as stack:
        order = stack.enter_context(lent(bytes_of(ticket), "the ticket"))
        to_output = stack.enter_context(lent_to_write(output, "the output"))
        to_scratch = stack.enter_context(lent_to_write(scratch, "the scratch"))
        see_apart([order, source], [to_output, to_scratch])
        outcome = answer("sotrugla_run", *order, *places, *source, *to_output, *to_scratch)
        head = order.first(HEAD)
    return judged(outcome, head, places.judged()).work


class Places(typing.NamedTuple):
    """The six numbers of a job's two pages, as the library takes them."""

    width: int
    height: int
    source_offset: int
    source_stride: int
    output_offset: int
    output_stride: int

    @classmethod
    def of(cls, page: Page, spot: Spot, job: str = "") -> Places:
        """The job is named to who hands in what is no such number."""
        if not (isinstance(page, Page) and isinstance(spot, Spot)):
            raise TypeError(f"{job}the page is a Page, and its place in the output a Spot")
        source_offset, width, height, source_stride = _sizes(page, f"{job}the page")
        output_offset, output_stride = _sizes(spot, f"{job}the spot")
        return cls(width, height, source_offset, source_stride, output_offset, output_stride)

    def judged(self) -> Placements:
        """The numbers that refusal 10 is about."""
        return Placements(self.width, self.height, self.source_stride, self.output_stride)


def _sizes(place: typing.Union[Page, Spot], name: str) -> list[int]:
    """The numbers of a place, each named."""
    return [size(value, f"{name}'s {field}") for field, value in place._asdict().items()]
