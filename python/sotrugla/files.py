"""Pages as raw Netpbm grey files (P5): read, and filtered into another such file."""

from __future__ import annotations

import contextlib
import typing

from .lending import lent, lent_to_write
from .library import answer
from .refusals import HEAD, judged
from .tickets import Ticket, bytes_of
from .trays import scratch_needed

if typing.TYPE_CHECKING:
    from _typeshed import ReadableBuffer

# The longest header that is written.
_HEADER = 17


class Pgm(typing.NamedTuple):
    """A file's first image, which can be filtered: the pixel at column c, row r is byte start + r * width + c of the
    file, and at most maximum, which is 1 to 255."""

    width: int
    height: int
    maximum: int
    start: int


class Written(typing.NamedTuple):
    """A file that was written, and how many comparisons it took."""

    file: bytes
    work: int


def read_pgm(file: ReadableBuffer) -> Pgm:
    """A raw Netpbm grey file (P5) alone, its first image: header and pixels. Raises Refused, 15, 16, 17 and 10, in this
    order.

    >>> read_pgm(b"P5 3 1 # a row\\n 9\\n" + bytes([9, 1, 5]))
    Pgm(width=3, height=1, maximum=9, start=18)
    """
    with lent(file, "the file") as bytes_read:
        shown = judged(answer("sotrugla_read_pgm", *bytes_read))
    return Pgm(shown.width, shown.height, shown.maximum, shown.start)


def run_pgm(ticket: typing.Union[Ticket, ReadableBuffer], file: ReadableBuffer) -> Written:
    """Filters the page of a file into a file of the same sides and maximum, which is answered as bytes, with the work.
    A hidden pixel comes out as the file's maximum. The ticket is a Ticket or its bytes, the file any buffer of bytes.
    Raises Refused: the ticket's refusals, then the file's, then 14.

    >>> ticket = Ticket(OPEN, CONNECTED, dx=1, dy=0, length=2).hide(left=2, top=0, width=1, height=1)
    >>> run_pgm(ticket, b"P5 3 1 9\\n" + bytes([9, 1, 5])).file
    b'P5\\n3\\n1\\n9\\n\\x01\\x01\\t'
    """
    with contextlib.ExitStack() as stack:
        order = stack.enter_context(lent(bytes_of(ticket), "the ticket"))
        source = stack.enter_context(lent(file, "the file"))
        # A refused file answers 0 for its sides. The job below says what is refused: it may be the ticket.
        shown = answer("sotrugla_read_pgm", *source)
        output = bytearray(_HEADER + shown.width * shown.height)
        scratch = bytearray(scratch_needed(shown.width, shown.height))
        to_output = stack.enter_context(lent_to_write(output, "the output"))
        to_scratch = stack.enter_context(lent_to_write(scratch, "the scratch"))
        outcome = answer("sotrugla_run_pgm", *order, *source, *to_output, *to_scratch)
        head = order.first(HEAD)
    written = judged(outcome, head)
    return Written(bytes(memoryview(output)[: written.length]), written.work)
