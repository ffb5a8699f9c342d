"""Where each page goes, decided before anything is done, so that no input is written over and no page is lost."""

from __future__ import annotations

import os
from typing import List, NamedTuple, Sequence, Union

from . import images
from .faults import Fault, Misused, reason
from .files import STANDARD


class Route(NamedTuple):
    """The file that a page comes from, and the one that it goes to."""

    page: str
    output: str


def routes(pages: Sequence[str], out: str) -> List[Route]:
    """One page goes to the file OUT. Several, or one with a folder for OUT, keep their names in that folder."""
    if len(pages) == 1 and not is_folder(out):
        _see_ending(out)
        return [Route(pages[0], out)]
    if out == STANDARD:
        raise Misused("several pages need a folder, not standard output")
    if os.path.exists(out) and not os.path.isdir(out):
        raise Misused(f"several pages need a folder, and {out} is none")
    if images.ending(out) in images.PAGES and not is_folder(out):
        raise Misused(f"several pages need a folder; for one of the name {out} type {out}/")
    if STANDARD in pages:
        raise Misused("standard input has no name to keep in a folder")
    return [Route(page, os.path.join(out, _kept_name(page))) for page in pages]


def _see_ending(out: str) -> None:
    if images.ending(out) in images.JPEG:
        raise Misused(f"{out}: JPEG changes pixels, and a hidden one would not stay white; take .png or .tif")
    if images.ending(out) in images.NOT_WRITTEN:
        raise Misused(f"{out}: no page is written so; take .pgm, .png, .tif or .bmp")


def see_apart(inputs: Sequence[str], outputs: Sequence[str]) -> None:
    """No two outputs are one file, and none is an input."""
    if inputs.count(STANDARD) > 1:
        raise Misused("standard input can be read only once")
    read = {_input_identity(name) for name in inputs}
    written = set()
    for name in outputs:
        if os.path.realpath(name) in written:
            raise Misused(f"two outputs have the name {name}")
        if name != STANDARD and _identity(name) in read:
            raise Misused(f"{name} is an input, and the output would be written over it")
        written.add(os.path.realpath(name))


def make_folder(out: str, wanted: Sequence[Route]) -> None:
    """Makes the folder that OUT names, if the pages go to one."""
    if wanted[0].output == out:
        return
    try:
        os.makedirs(out, exist_ok=True)
    except OSError as error:
        raise Fault(out, f"cannot be made: {reason(error)}") from error


def is_folder(out: str) -> bool:
    return out.endswith("/") or os.path.isdir(out)


def _kept_name(page: str) -> str:
    name = os.path.basename(os.path.normpath(page))
    return os.path.splitext(name)[0] + ".png" if images.ending(name) in images.JPEG else name


def _identity(name: Union[str, int]) -> object:
    """The file itself, whatever its names; of one that is not there, its name."""
    try:
        found = os.stat(name)
    except OSError:
        return os.path.realpath(name) if isinstance(name, str) else None
    return found.st_dev, found.st_ino


def _input_identity(name: str) -> object:
    return _identity(0 if name == STANDARD else name)
