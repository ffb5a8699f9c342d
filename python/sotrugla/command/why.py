"""Why a pixel of a page comes out as it does: the sentence, and the picture."""

from __future__ import annotations

import json
from typing import Any, Optional

import sotrugla

from . import files, images, pages, picture
from .faults import Fault, Misused, reason


def see_picture(name: str) -> None:
    """Whether a picture of this name can be drawn. Raises Misused, and Fault where Pillow is needed for it."""
    if images.ending(name) not in picture.WRITERS:
        raise Misused(f"{name}: the name of a picture ends in .svg or .png")
    if images.ending(name) == picture.PNG and images.installed_pillow() is None:
        raise Fault(name, f"cannot be drawn: {images.MISSING}; a name that ends in .svg needs no Pillow")


def answer(name: str, ticket: bytes, pixel: sotrugla.Pixel, drawn: Optional[str], as_json: bool) -> None:
    """Says why the pixel comes out so, and draws it where a name for the picture is given. Raises Fault."""
    try:
        page, _ = pages.opened(name)
        found = pages.asked(name, page, lambda: sotrugla.why_pgm(ticket, page, **pixel._asdict()))
    except MemoryError as error:
        raise Fault(name, "cannot be asked about: there is not enough memory") from error
    except Fault as fault:
        if as_json and isinstance(fault.__cause__, sotrugla.Refused):
            files.put(files.STANDARD, _refused_in_json(fault.__cause__).encode())
        raise
    told = _in_json(found) if as_json else str(found)
    files.put(files.STANDARD, f"{told}\n".encode())
    if drawn is not None:
        _draw(drawn, name, page, ticket, found)


def _draw(drawn: str, name: str, page: bytes, ticket: bytes, found: sotrugla.Reason) -> None:
    try:
        drawing = picture.drawing(name, page, sotrugla.read_ticket(ticket), found)
        content = picture.WRITERS[images.ending(drawn)](drawing)
        # It shows part of the page, so it is as private.
        files.write(drawn, content, like=name)
    except (OSError, MemoryError) as error:
        raise Fault(drawn, f"cannot be written: {reason(error)}") from error


def _in_json(found: sotrugla.Reason) -> str:
    """By the names of the library's numbers, each pixel as its column and row."""
    named = {name.rstrip("_"): _numbers(value) for name, value in found._asdict().items()}
    return json.dumps({"refusal": 0, "place": 0, **named, "sentence": str(found)})


def _numbers(value: Any) -> Any:
    """A pixel or a box by the names of its numbers, and what is neither as it is."""
    return value._asdict() if isinstance(value, tuple) else value


def _refused_in_json(refused: sotrugla.Refused) -> str:
    return json.dumps({"refusal": refused.refusal, "place": refused.place, "sentence": refused.sentence}) + "\n"
