"""Trays as files, mapped and not read: a tray may be larger than the memory, and pages are written where they stand."""

from __future__ import annotations

import contextlib
import errno
import mmap
import os
import stat
from typing import BinaryIO, Iterator, NamedTuple, Sequence, Union

from . import files
from .faults import Fault, reason

Tray = Union[mmap.mmap, memoryview]

# What a system answers that does not reserve room.
_NO_ROOM_KEPT = (errno.EINVAL, errno.ENODEV, errno.ENOSYS, errno.EOPNOTSUPP)


class Span(NamedTuple):
    """Neighbouring bytes of a tray."""

    start: int
    length: int


@contextlib.contextmanager
def to_read(name: str) -> Iterator[Tray]:
    """The tray of a file. Raises Fault."""
    _see_ordinary(name, "read")
    try:
        with open(name, "rb") as file:
            tray = _mapped(file, mmap.ACCESS_READ)
    except OSError as error:
        raise Fault(name, f"cannot be read: {reason(error)}") from error
    with tray:
        yield tray


@contextlib.contextmanager
def to_write(name: str, length: int, spans: Sequence[Span], like: str) -> Iterator[Tray]:
    """The tray of a file, to be written at these spans. One that exists is written where it stands. A new one has so
    many bytes, zero at first, may be read and written by its owner and by those others who may read and write the file
    that it is like, and gets its name when all of it is on the disk, unless another has it by then. Raises Fault."""
    new = not os.path.exists(name)
    if new and os.path.islink(name):
        # What it should name may be on a disk that is not there now; a tray made elsewhere would be missed.
        raise Fault(name, "cannot be written: it is a link to nothing")
    if not new:
        _see_ordinary(name, "written")
    try:
        with files.made(name, like) if new else open(name, "r+b") as file:
            if new:
                file.truncate(length)
            _reserve(file, spans)
            with _mapped(file, mmap.ACCESS_WRITE) as tray:
                yield tray
                if isinstance(tray, mmap.mmap):
                    tray.flush()
    except OSError as error:
        raise Fault(name, f"cannot be written: {reason(error)}") from error


def _see_ordinary(name: str, done: str) -> None:
    """A pipe would be waited for, and taken for an empty file."""
    with contextlib.suppress(OSError):  # Who opens it says why it is not there.
        if not stat.S_ISREG(os.stat(name).st_mode):
            raise Fault(name, f"cannot be {done}: it is no ordinary file, which alone can be mapped")


def _mapped(file: BinaryIO, access: int) -> Tray:
    """An empty file cannot be mapped."""
    length = os.fstat(file.fileno()).st_size
    return mmap.mmap(file.fileno(), length, access=access) if length else memoryview(bytearray())


def _reserve(file: BinaryIO, spans: Sequence[Span]) -> None:
    """Room on the disk for what is to be written, as far as the file goes: who meets a full disk in a mapping is killed
    by the system. No byte changes."""
    length = os.fstat(file.fileno()).st_size
    within = [span for span in spans if span.length and span.start + span.length <= length]
    if not hasattr(os, "posix_fallocate"):
        return
    for span in within:
        try:
            os.posix_fallocate(file.fileno(), *span)
        except OSError as error:
            if error.errno not in _NO_ROOM_KEPT:
                raise
