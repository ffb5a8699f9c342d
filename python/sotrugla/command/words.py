"""The words of the command that name an operation, and what each does to dark strokes on white paper."""

from __future__ import annotations

from typing import Callable, NamedTuple

from sotrugla import CLOSE, DILATE, ERODE, OPEN, Ticket


class Word(NamedTuple):
    """An operation, what makes a ticket that orders it, and its effect."""

    operation: int
    make: Callable[..., Ticket]
    effect: str


WORDS = {
    "erode": Word(ERODE, Ticket.erosion, "dark strokes grow"),
    "dilate": Word(DILATE, Ticket.dilation, "dark strokes shrink; those shorter than the segment go"),
    "open": Word(OPEN, Ticket.opening, "light gaps shorter than the segment fill, longer ones stay"),
    "close": Word(CLOSE, Ticket.closing, "dark strokes shorter than the segment go, longer ones stay"),
}


def word_of(operation: int) -> str:
    return next(word for word, known in WORDS.items() if known.operation == operation)
