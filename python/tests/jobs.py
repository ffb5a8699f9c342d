"""What tests of several subjects share: a small page, a ticket for it, and modules that may not be installed."""

import importlib
import pathlib

from sotrugla import CONNECTED, OPEN, Page, Spot, Ticket

PYTHON = pathlib.Path(__file__).resolve().parents[1]
ROOT = PYTHON.parent

ROW = bytes([9, 1, 5])
ALONE = Page(offset=0, width=3, height=1, stride=3)
SPOT = Spot(offset=0, stride=3)


def ticket(operation=OPEN, line=CONNECTED, dx=1, dy=0, length=2, **more):
    return Ticket(operation, line, dx=dx, dy=dy, length=length, **more)


def greys(width, height, maximum=255):
    """A page's pixels: every grey up to the maximum, in no order."""
    return bytes(at * at * 31 % 257 % (maximum + 1) for at in range(width * height))


def installed(name):
    """The module, or None: Debian has numpy as python3-numpy and Pillow as python3-pil."""
    try:
        return importlib.import_module(name)
    except ImportError:
        return None
