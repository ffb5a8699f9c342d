"""Grey pages filtered along lines, as a job ticket orders: erode, dilate, open and close, with hidden boxes.

The filter is a proved library; this package loads it by ctypes and needs nothing else. A page that is a numpy array, a
Pillow image or another two-dimensional buffer of bytes is filtered in one call:

    >>> row = memoryview(bytes([255, 255, 0, 255, 255])).cast("B", [1, 5])
    >>> closing(row, along=(1, 0), length=3).tolist()
    [[255, 255, 255, 255, 255]]

A page that arrives as a raw Netpbm grey file (P5) leaves as one: run_pgm takes the file's bytes and gives those of
another. And run filters one page of a tray, where pages stand side by side, into another tray:

    >>> ticket = Ticket(OPEN, CONNECTED, dx=1, dy=0, length=2)
    >>> page = Page(offset=1, width=3, height=1, stride=3)
    >>> output = bytearray(3)
    >>> run(ticket, page, bytes([77, 9, 1, 5, 77]), Spot(offset=0, stride=3), output)
    6
    >>> list(output)
    [1, 1, 5]

A whole tray is filtered in one call: run_tray takes a list of up to 256 such jobs, and answers each of them.

    >>> jobs = [TrayJob(ticket, page._replace(offset=at), Spot(offset=at, stride=3)) for at in (0, 4)]
    >>> [result.work for result in run_tray(jobs, bytes([9, 1, 5, 77, 7, 3, 8]), bytearray(7))]
    [6, 6]

And of any pixel the reason is named why it comes out so: by why for a page of a tray, by why_pgm for a file, and by
why_array for a page that is an array or an image.

    >>> print(why(ticket, page, bytes([77, 9, 1, 5, 77]), column=0, row=0))
    column 0, row 0 is 1 because column 1, row 0 is 1, by way of column 0, row 0

Trays may be any buffers of bytes in one piece: bytes, bytearray, memoryview, mmap, arrays of uint8. They are lent, not
copied. Lengths are taken from the buffers, numbers are passed by name, and buffers that overlap are refused, so a call
is hard to get wrong. Two things are left to the caller. Other threads run on during a call, and must keep off its
buffers. And a call needs a thread with 512 KiB of stack. Threads mostly have more; a smaller stack raises RuntimeError
where its size can be known, as on Linux, and elsewhere may end the process.
"""

# Before the imports: the library is held to it as it is loaded.
__version__ = "0.6.0"

from .arrays import closing, dilation, erosion, opening, why_array
from .files import Pgm, Written, read_pgm, run_pgm
from .lists import Result, TrayJob, run_tray
from .reasons import HIDDEN_BOX, ONE_PASS, TWO_PASSES, Pixel, Reason, why, why_pgm
from .refusals import SENTENCES, Refused
from .tickets import (
    CLOSE,
    CONNECTED,
    DILATE,
    ERODE,
    OPEN,
    PERIODIC,
    HiddenBox,
    Ticket,
    is_hidden,
    read_ticket,
)
from .trays import Page, Spot, run, scratch_needed

__all__ = [
    "CLOSE",
    "CONNECTED",
    "DILATE",
    "ERODE",
    "HIDDEN_BOX",
    "ONE_PASS",
    "OPEN",
    "PERIODIC",
    "SENTENCES",
    "TWO_PASSES",
    "HiddenBox",
    "Page",
    "Pgm",
    "Pixel",
    "Reason",
    "Refused",
    "Result",
    "Spot",
    "Ticket",
    "TrayJob",
    "Written",
    "closing",
    "dilation",
    "erosion",
    "is_hidden",
    "opening",
    "read_pgm",
    "read_ticket",
    "run",
    "run_pgm",
    "run_tray",
    "scratch_needed",
    "why",
    "why_array",
    "why_pgm",
]
