"""Pages as arrays and images: the four filters by the names that scikit-image gives them, and the reasons of pixels.

A page is a two-dimensional numpy array of uint8, a Pillow image of mode "L", or another two-dimensional buffer of
bytes; the answer is a new page of the same kind, or a two-dimensional memoryview for another buffer. Neither numpy nor
Pillow is needed: whoever has a page of theirs has imported them.
"""

from __future__ import annotations

import contextlib
import sys
import types
import typing

from .lending import Lent, address, lent, viewed
from .reasons import Reason, pixel_of, why_lent
from .refusals import WIDEST_STRIDE
from .tickets import Boxes, Origin, Ticket, Vector
from .trays import Page, Spot, run_lent

# What a page is has no name here, as numpy and Pillow may not be there.
Pixels = typing.Any


def erosion(
    array: Pixels,
    *,
    along: Vector,
    length: int,
    origin: Origin = "centre",
    periodic: bool = False,
    phase: int = 0,
    hide: Boxes = (),
) -> Pixels:
    """The minimum over a segment of so many steps along the vector (dx, dy): dark strokes grow.

    The origin is a step of the segment, its middle (length // 2) unless said otherwise. The line is connected, with a
    phase, or periodic. Pixels in one of the hidden boxes (left, top, width, height) come out as 255, and no other
    pixel depends on them. Raises Refused.

    >>> row = memoryview(bytes([9, 1, 5])).cast("B", [1, 3])
    >>> erosion(row, along=(1, 0), length=3).tolist()
    [[1, 1, 1]]
    """
    ticket = Ticket.erosion(along=along, length=length, origin=origin, periodic=periodic, phase=phase, hide=hide)
    return _filtered(ticket, array)


def dilation(
    array: Pixels,
    *,
    along: Vector,
    length: int,
    origin: Origin = "centre",
    periodic: bool = False,
    phase: int = 0,
    hide: Boxes = (),
) -> Pixels:
    """The maximum over a segment: dark strokes shrink. Its arguments are those of erosion."""
    ticket = Ticket.dilation(along=along, length=length, origin=origin, periodic=periodic, phase=phase, hide=hide)
    return _filtered(ticket, array)


def opening(
    array: Pixels,
    *,
    along: Vector,
    length: int,
    origin: Origin = "centre",
    periodic: bool = False,
    phase: int = 0,
    hide: Boxes = (),
) -> Pixels:
    """An erosion and then a dilation: light gaps shorter than the segment go. Its arguments are those of erosion."""
    ticket = Ticket.opening(along=along, length=length, origin=origin, periodic=periodic, phase=phase, hide=hide)
    return _filtered(ticket, array)


def closing(
    array: Pixels,
    *,
    along: Vector,
    length: int,
    origin: Origin = "centre",
    periodic: bool = False,
    phase: int = 0,
    hide: Boxes = (),
) -> Pixels:
    """A dilation and then an erosion: dark strokes shorter than the segment go. Its arguments are those of erosion."""
    ticket = Ticket.closing(along=along, length=length, origin=origin, periodic=periodic, phase=phase, hide=hide)
    return _filtered(ticket, array)


def why_array(ticket: Ticket, array: Pixels, *, column: int, row: int) -> Reason:
    """Names the reason why a pixel of a page comes out as it does, which the filter that makes such a ticket filters.
    Raises Refused; 19 is a pixel off the page.

    >>> row = memoryview(bytes([9, 1, 5])).cast("B", [1, 3])
    >>> print(why_array(Ticket.erosion(along=(1, 0), length=3), row, column=0, row=0))
    column 0, row 0 is 1 because column 1, row 0 is 1
    """
    with _lent_page(array) as (page, tray):
        return why_lent(ticket, page, tray, pixel_of(column, row))


def _filtered(ticket: Ticket, array: Pixels) -> Pixels:
    with _lent_page(array) as (page, tray):
        output = bytearray(page.width * page.height)
        run_lent(ticket, page, tray, Spot(0, page.width), output)
    pillow, numpy = _owner(array, "PIL.Image", "Image"), _owner(array, "numpy", "ndarray")
    if pillow is not None:
        # A new image of the pixels alone: what else an image carries may hold a small picture of the page, unhidden.
        return pillow.frombytes("L", (page.width, page.height), bytes(output))
    rows = memoryview(output).cast("B", [page.height, page.width])
    return rows if numpy is None else numpy.asarray(rows)


def _owner(value: object, module: str, name: str) -> typing.Optional[types.ModuleType]:
    """The module, where the value is of its type: a module that nobody imported has made no values."""
    found = sys.modules.get(module)
    return found if isinstance(value, getattr(found, name, ())) else None


@contextlib.contextmanager
def _lent_page(array: Pixels) -> typing.Iterator[tuple[Page, Lent]]:
    """The page where it stands, and with it what stands between its rows; or a copy, where its pixels do not stand as a
    placement has them."""
    with contextlib.ExitStack() as stack:
        if _owner(array, "PIL.Image", "Image") is not None:
            yield stack.enter_context(_lent_copy(*_image_pixels(array)))
            return
        if _owner(array, "numpy.ma", "MaskedArray") is not None:
            raise TypeError("the page is a masked array, whose mask would be lost: name what is hidden by hide=")
        view = stack.enter_context(viewed(array, "the page", (2,)))
        height, width = view.shape
        stride = _stride(view)
        if stride is None:
            # numpy gathers pixels that stand apart many times as fast as a memoryview.
            numpy = _owner(array, "numpy", "ndarray")
            pixels = view.tobytes() if numpy is None else numpy.ndarray.tobytes(array)
            yield stack.enter_context(_lent_copy(width, height, pixels))
            return
        length = (height - 1) * stride + width if view.nbytes else 0
        yield Page(0, width, height, stride), Lent(stack.enter_context(address(view)), length)


def _image_pixels(image: Pixels) -> tuple[int, int, bytes]:
    if image.mode != "L":
        raise TypeError(f"the image has mode {image.mode!r}, not 'L': convert it to grey first, by image.convert('L')")
    return (*image.size, image.tobytes())


def _stride(view: memoryview) -> typing.Optional[int]:
    """The stride, if the pixels stand as a placement has them: else they must be copied."""
    _, width = view.shape
    stride, step = view.strides
    return stride if step == 1 and width <= stride <= WIDEST_STRIDE else None


@contextlib.contextmanager
def _lent_copy(width: int, height: int, pixels: bytes) -> typing.Iterator[tuple[Page, Lent]]:
    """The pixels, row by row without gaps."""
    with lent(pixels, "the page") as tray:
        yield Page(0, width, height, width), tray
