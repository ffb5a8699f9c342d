"""Pages in other formats than P5, where Pillow is installed: to a P5 file for the proved reader, and back."""

from __future__ import annotations

import io
import math
import os
import warnings
from typing import Any, Mapping, NamedTuple, Tuple

import sotrugla

from .faults import Fault, reason

# What Pillow is let to open: formats of scans, and none for which it starts another program.
_OPENED = ("BMP", "JPEG", "PNG", "TIFF")
_BEGINNINGS = (b"BM", b"\xff\xd8\xff", b"\x89PNG", b"II*\0", b"MM\0*")
_SAVED = {".bmp": "BMP", ".png": "PNG", ".tif": "TIFF", ".tiff": "TIFF"}
_LOSSLESS = ("group3", "group4", "packbits", "tiff_adobe_deflate", "tiff_lzw")
MISSING = "Pillow is not installed (pip install Pillow)"

JPEG = (".jpg", ".jpeg")
# Endings of a page's file.
PAGES = (".pgm", *_SAVED, *JPEG)
# Endings of other formats, none of which is written: a P5 file would stand under a name that says otherwise.
NOT_WRITTEN = (".gif", ".jp2", ".pbm", ".pdf", ".ppm", ".webp")

# The tag by which a viewer turns a picture, and its value for one that stands upright.
_ORIENTATION, _UPRIGHT = 0x0112, 1

# Pillow warns of large and of damaged files in words of its own; where it matters, the page gets a line here.
warnings.filterwarnings("ignore", module=r"PIL\.")


class Kept(NamedTuple):
    """What an image file says beside the grey of its pixels, as far as it is kept."""

    bilevel: bool = False
    said: Mapping[str, Any] = {}


def ending(name: str) -> str:
    return os.path.splitext(name)[1].lower()


def opened(name: str, content: bytes) -> Tuple[bytes, Kept]:
    """The page as a P5 file, and what is kept. A file that Pillow does not know is handed on as it is: the proved
    reader refuses it."""
    pillow = None if content.startswith(b"P5") else installed_pillow()
    if pillow is None:
        return content, Kept()
    try:
        with pillow.Image.open(io.BytesIO(content), formats=_OPENED) as image:
            _see_one_grey_page(name, image)
            return _p5(image), _kept(image)
    except pillow.UnidentifiedImageError:
        return content, Kept()
    except (Fault, MemoryError):
        raise
    except Exception as error:  # Pillow meets damaged files with errors of many kinds.
        raise Fault(name, f"cannot be read: {reason(error)}") from error


def hint(content: bytes) -> str:
    """What would help with a file that the proved reader refused."""
    return f"; {MISSING}" if content.startswith(_BEGINNINGS) and installed_pillow() is None else ""


def saved(name: str, page: bytes, kept: Kept) -> bytes:
    """A finished page, which is a P5 file, in the format that its name ends in."""
    if ending(name) not in _SAVED:
        return page
    pillow = installed_pillow()
    if pillow is None:
        raise ImportError(MISSING)
    shown = sotrugla.read_pgm(page)
    image = pillow.Image.frombytes("L", (shown.width, shown.height), up_to_white(page[shown.start :], shown.maximum))
    file = io.BytesIO()
    (image.convert("1") if kept.bilevel else image).save(file, _SAVED[ending(name)], **kept.said)
    return file.getvalue()


def installed_pillow() -> Any:
    """The package, where it is installed. It is asked for only where a page needs it, as it takes time to load."""
    try:
        import PIL.Image
    except ImportError:
        return None
    return PIL


def _see_one_grey_page(name: str, image: Any) -> None:
    if getattr(image, "n_frames", 1) > 1:
        raise more_than_one(name)
    if image.mode not in ("1", "L"):
        raise Fault(name, f"cannot be cleaned: its pixels are not 8-bit grey but {image.mode}; convert it first")
    if "transparency" in image.info:
        raise Fault(name, "cannot be cleaned: it has transparent pixels; put it on white first")
    if image.getexif().get(_ORIENTATION, _UPRIGHT) != _UPRIGHT:
        # A box that was measured in a viewer would hide other pixels.
        raise Fault(name, "cannot be cleaned: it is shown turned, not as it is stored; turn it upright first")


def more_than_one(name: str) -> Fault:
    return Fault(name, "cannot be cleaned: it has more behind its first image, which would be lost; split it first")


def _p5(image: Any) -> bytes:
    grey = image.convert("L")
    return b"P5\n%d\n%d\n255\n" % grey.size + grey.tobytes()


def _kept(image: Any) -> Kept:
    """The dots an inch, and of a TIFF file the compression, which other formats take no notice of."""
    said = {name: image.info[name] for name in ("dpi", "compression") if image.info.get(name)}
    if said.get("compression") not in _LOSSLESS:
        said.pop("compression", None)
    # Pillow makes up 1 where a TIFF file tells no resolution, and a damaged one may tell no number.
    if not all(1 < dots < math.inf for dots in said.get("dpi", ())):
        del said["dpi"]
    return Kept(image.mode == "1", said)


def up_to_white(pixels: bytes, maximum: int) -> bytes:
    """White is 255 in these formats, and the maximum in a P5 file. No two greys become one."""
    return pixels.translate(bytes(min(255, (510 * grey + maximum) // (2 * maximum)) for grey in range(256)))
