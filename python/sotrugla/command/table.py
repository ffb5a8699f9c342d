"""The answers to a list of jobs, for the operators: as one table, or as JSON."""

from __future__ import annotations

import json
import unicodedata
from typing import Sequence

import sotrugla

from .faults import shown

_HEAD = ("job", "page", "answer", "sentence", "work")
# The columns of numbers, which end where their neighbours end.
_NUMBERS = ("job", "work")


def in_words(pages: Sequence[str], results: Sequence[sotrugla.Result]) -> str:
    """A row for each job, and a last line that counts the finished ones."""
    rows = [_HEAD, *map(_row, range(1, len(pages) + 1), pages, results)]
    widths = [max(map(_width, column)) for column in zip(*rows)]
    lines = ["  ".join(map(_padded, _HEAD, row, widths)) for row in rows]
    finished = sum(result.refused is None for result in results)
    return "".join(f"{line}\n" for line in [*lines, f"{finished} of {len(pages)} pages finished"])


def in_json(pages: Sequence[str], results: Sequence[sotrugla.Result]) -> str:
    jobs = [
        {
            "job": number,
            "page": page,
            "refusal": result.refused.refusal if result.refused else 0,
            "place": result.refused.place if result.refused else 0,
            "sentence": _sentence(result),
            "work": result.work,
        }
        for number, (page, result) in enumerate(zip(pages, results), 1)
    ]
    return json.dumps({"refusal": 0, "place": 0, "jobs": jobs}) + "\n"


def refused_in_json(refused: sotrugla.Refused) -> str:
    """Of a list that is refused, of which no job is answered."""
    return json.dumps({"refusal": refused.refusal, "place": refused.place, "jobs": []}) + "\n"


def _row(number: int, page: str, result: sotrugla.Result) -> Sequence[str]:
    refused = result.refused
    answer = f"refused {refused.refusal} at {refused.place}" if refused else "done"
    return str(number), shown(page), answer, _sentence(result), str(result.work)


def _sentence(result: sotrugla.Result) -> str:
    """Nothing of a finished page: what is refused stands out so."""
    return result.refused.sentence if result.refused else ""


def _padded(name: str, text: str, width: int) -> str:
    blanks = " " * (width - _width(text))
    return blanks + text if name in _NUMBERS else text + blanks


def _width(text: str) -> int:
    """The columns of a terminal that a text takes."""
    return sum(_letter_width(letter) for letter in text)


def _letter_width(letter: str) -> int:
    if unicodedata.combining(letter):
        return 0
    return 2 if unicodedata.east_asian_width(letter) in "FW" else 1
