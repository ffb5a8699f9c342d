"""Buffers lent to a call: not copied, and kept from moving or shrinking until they are given back."""

from __future__ import annotations

import contextlib
import ctypes
import typing

if typing.TYPE_CHECKING:
    from _typeshed import ReadableBuffer, WriteableBuffer

# Of a tray, a ticket, a file or a scratch; a page by itself has two.
TRAY_DIMENSIONS = (1, 2)


class Lent(typing.NamedTuple):
    """A lent buffer, as the library takes it."""

    address: int
    length: int

    def first(self, count: int) -> bytes:
        """A copy of so many first bytes, or of all where there are fewer."""
        return ctypes.string_at(self.address, min(count, self.length))

    def byte(self, at: int) -> int:
        """The byte that so many stand before."""
        return ctypes.c_uint8.from_address(self.address + at).value

    def overlaps(self, other: Lent) -> bool:
        """Whether they share a byte. An empty one shares none."""
        first, end = max(self.address, other.address), min(self.address + self.length, other.address + other.length)
        return first < end


@contextlib.contextmanager
def viewed(buffer: ReadableBuffer, name: str, dimensions: tuple[int, ...]) -> typing.Iterator[memoryview]:
    """A view of a buffer of bytes. The name is for who handed in something else."""
    try:
        view = memoryview(buffer)
    except TypeError:
        raise TypeError(f"{name} is of type {type(buffer).__name__}, not a buffer of bytes") from None
    with view:
        if view.format.lstrip("@=<>!") not in ("B", "c"):
            raise TypeError(f"{name} is a buffer of format {view.format!r}, not of bytes (uint8)")
        if view.ndim not in dimensions:
            plural = "" if view.ndim == 1 else "s"
            raise TypeError(f"{name} has {view.ndim} dimension{plural}, not {' or '.join(map(str, dimensions))}")
        yield view


@contextlib.contextmanager
def lent(buffer: ReadableBuffer, name: str) -> typing.Iterator[Lent]:
    """A buffer of bytes in one piece, to be read."""
    with viewed(buffer, name, TRAY_DIMENSIONS) as view:
        if not view.c_contiguous:
            raise BufferError(f"{name} is not in one piece: its bytes must follow each other")
        with address(view) as start:
            yield Lent(start, view.nbytes)


@contextlib.contextmanager
def lent_to_write(buffer: WriteableBuffer, name: str) -> typing.Iterator[Lent]:
    """A buffer of bytes in one piece, to be written."""
    with viewed(buffer, name, TRAY_DIMENSIONS) as view:
        if view.readonly:
            raise BufferError(f"{name} cannot be written")
        with lent(view, name) as found:
            yield found


def see_apart(read: list[Lent], written: list[Lent]) -> None:
    """No buffer that is written overlaps another."""
    for at, buffer in enumerate(written):
        if any(map(buffer.overlaps, read + written[:at])):
            raise ValueError("a buffer that is written overlaps another buffer of the job")


class _PyBuffer(ctypes.Structure):
    """CPython's Py_buffer."""

    _fields_ = [
        ("buf", ctypes.c_void_p),
        ("obj", ctypes.c_void_p),
        ("len", ctypes.c_ssize_t),
        ("itemsize", ctypes.c_ssize_t),
        ("readonly", ctypes.c_int),
        ("ndim", ctypes.c_int),
        ("format", ctypes.c_char_p),
        ("shape", ctypes.c_void_p),
        ("strides", ctypes.c_void_p),
        ("suboffsets", ctypes.c_void_p),
        ("internal", ctypes.c_void_p),
    ]


# CPython's PyBUF_STRIDES: rows may stand apart, and nothing is asked about writing.
_STRIDES = 0x18


@contextlib.contextmanager
def address(view: memoryview) -> typing.Iterator[int]:
    """Where the view's first byte stands. An empty one may stand nowhere, at 0."""
    found = _PyBuffer()
    ctypes.pythonapi.PyObject_GetBuffer(ctypes.py_object(view), ctypes.byref(found), _STRIDES)
    try:
        yield found.buf or 0
    finally:
        ctypes.pythonapi.PyBuffer_Release(ctypes.byref(found))
