"""A picture of a reason: the page around the pixel before and after, its line, the windows, and the pixels that decide.
One description of the drawing, and a writer for each format."""

from . import png, svg
from .sheet import drawing

PNG = ".png"
# By the endings of a picture's name.
WRITERS = {".svg": svg.written, PNG: png.written}

__all__ = ["PNG", "WRITERS", "drawing"]
