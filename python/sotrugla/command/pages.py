"""One page: read, cleaned by the proved library, and written."""

from __future__ import annotations

from typing import Callable, Tuple, TypeVar

import sotrugla

from . import files, images
from .faults import Fault, reason
from .outputs import Route

Answer = TypeVar("Answer")


def clean(route: Route, ticket: bytes) -> None:
    """Raises Fault; then a file of the output's name is as it was."""
    try:
        page, kept = opened(route.page)
        finished = asked(route.page, page, lambda: sotrugla.run_pgm(ticket, page).file)
    except MemoryError as error:
        raise Fault(route.page, "cannot be cleaned: there is not enough memory") from error
    try:
        files.write(route.output, images.saved(route.output, finished, kept), like=route.page)
    except Exception as error:  # Pillow's encoders know errors of many kinds, beside those of the disk.
        if route.output == files.STANDARD and isinstance(error, BrokenPipeError):
            raise
        raise Fault(route.page, f"cannot be written: {reason(error)} ({route.output})") from error


def opened(name: str) -> Tuple[bytes, images.Kept]:
    """The page as a P5 file, and what is kept of an image."""
    return images.opened(name, files.read(name))


def asked(name: str, page: bytes, call: Callable[[], Answer]) -> Answer:
    """What a call of the library on the page, a P5 file, answers."""
    try:
        answer = call()
    except sotrugla.Refused as refused:
        raise Fault(name, f"{refused}{images.hint(page)}") from refused
    # The proved reader takes the first image of a file: what stands behind it would be lost.
    shown = sotrugla.read_pgm(page)
    if page[shown.start + shown.width * shown.height :].strip():
        raise images.more_than_one(name)
    return answer
