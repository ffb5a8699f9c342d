"""Refusals: their numbers, places and sentences."""

from __future__ import annotations

import struct
import typing

# By the refusals' numbers: 1 to 25 are kept for the law's, 100 is the library's own.
SENTENCES = {
    1: "the ticket ends inside a field, or before one of its first six fields",
    2: "a field has another tag than the one due",
    3: "a field has the wrong length",
    4: "the operation or the line is unknown",
    5: "the ticket has more than 64 hidden boxes",
    6: "the vector is not allowed",
    7: "the segment length is 0 or above 8192",
    8: "the origin is not below the segment length",
    9: "the phase is not allowed",
    10: "a side is not 1 to 8192, or a stride is not from the width to 16384",
    11: "the source page does not fit its tray",
    12: "the output page does not fit its tray",
    13: "the scratch is too short",
    14: "a hidden box has a zero side or passes the page's edge",
    15: "the file is no raw grey Netpbm file (P5), its header is damaged, or its maximum is 0",
    16: "the file's maximum is above 255",
    17: "a pixel of the file is above its maximum, or the file has too few pixels",
    18: "the list has more than 256 jobs",
    19: "the pixel is off the page",
    100: "the buffer of numbers is too short",
}

# What is wrong with the vector of refusal 6: the first that holds.
VECTOR_SENTENCES = (
    "the vector is 0, 0 and has no direction",
    "a component of the vector is beyond -255 to 255",
    "the vector is neither shallow (dx at least the size of dy) nor steep (dy above the size of dx)",
    "dx and dy of a connected line have a common divisor above 1",
)

# What is wrong with the placements of refusal 10: the first that holds.
PLACEMENT_SENTENCES = (
    "the width is not 1 to 8192",
    "the height is not 1 to 8192",
    "the source stride is not from the width to 16384",
    "the output stride is not from the width to 16384",
)

# A file has sides and no placement.
FILE_SENTENCE = "a side of the file's page is not 1 to 8192"

# The limits of placements, and of a list, that these sentences tell.
LARGEST_SIDE, WIDEST_STRIDE = 8192, 16384
MOST_JOBS = 256


class Placements(typing.NamedTuple):
    """The numbers that refusal 10 is about."""

    width: int
    height: int
    source_stride: int
    output_stride: int


class Refused(Exception):
    """A refused job, a refused list (18) or a refused question about a pixel (19): its number, its place and a sentence
    that says what was wrong. The place is the ticket's byte where the field at fault starts (1 to 9), the number of the
    box from 0 (14), the file's first byte at fault, or its length where it ends too soon (15 to 17), the numbers needed
    (100), else 0. Nothing was written.

    >>> print(Refused(7, 15))
    refused 7 at 15: the segment length is 0 or above 8192 (the field at byte 15 of the ticket)
    """

    def __init__(self, refusal: int, place: int, sentence: typing.Optional[str] = None) -> None:
        self.refusal, self.place, self.sentence = refusal, place, sentence or SENTENCES.get(refusal, "unknown refusal")
        # An exception is copied and pickled by its arguments.
        super().__init__(self.refusal, self.place, self.sentence)

    def __str__(self) -> str:
        return f"refused {self.refusal} at {self.place}: {self.sentence}{self._where()}"

    def _where(self) -> str:
        if self.refusal <= 9:
            return f" (the field at byte {self.place} of the ticket)"
        if self.refusal == 14:
            return f" (box {self.place}, counted from 0)"
        if 15 <= self.refusal <= 17:
            return f" (byte {self.place} of the file, counted from 0, or its end)"
        return f" (it needs {self.place} numbers)" if self.refusal == 100 else ""


# How many of the ticket's first bytes a sentence may be about: the vector is the last 4.
HEAD = 15


def judged(answer: typing.Any, head: bytes = b"", placements: typing.Optional[Placements] = None) -> typing.Any:
    """The library's answer, if it is no refusal. The head is the ticket's; a job on a file has no placements."""
    found = refused(answer, head, placements)
    if found is not None:
        raise found
    return answer


def refused(answer: typing.Any, head: bytes, placements: typing.Optional[Placements]) -> typing.Optional[Refused]:
    """What judged raises, if anything."""
    if not answer.refusal:
        return None
    sentence = SENTENCES[answer.refusal]
    if answer.refusal == 6:
        sentence = _vector_sentence(*struct.unpack(">hh", head[-4:]))
    if answer.refusal == 10:
        sentence = _placement_sentence(placements) if placements else FILE_SENTENCE
    return Refused(answer.refusal, answer.place, sentence)


def _vector_sentence(dx: int, dy: int) -> str:
    neither = dx < abs(dy) and dy <= abs(dx)
    holds = (dx == dy == 0, max(abs(dx), abs(dy)) > 255, neither, True)
    return VECTOR_SENTENCES[holds.index(True)]


def _placement_sentence(placements: Placements) -> str:
    width, height, source_stride, _ = placements
    sides = [1 <= side <= LARGEST_SIDE for side in (width, height)]
    allowed = [*sides, width <= source_stride <= WIDEST_STRIDE, False]
    return PLACEMENT_SENTENCES[allowed.index(False)]
