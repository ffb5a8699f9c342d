"""A list of jobs as a file: a JSON array of objects, or CSV lines below a head line. Everything in it is looked at
before a page is: what is wrong is said with the list, the job, counted from 1, and the column."""

from __future__ import annotations

import csv
import io
import json
import os
import re
from typing import Any, Dict, List, Mapping, NamedTuple, Sequence, Tuple

import sotrugla

from . import files
from .faults import Fault, Misused, reason, shown

_NAMES = ("page", "ticket")
_NUMBERS = ("width", "height", "source_offset", "source_stride", "output_offset", "output_stride")
COLUMNS = _NAMES + _NUMBERS

# How much is shown of a value that is refused.
_SHOWN = 40


class Listed(NamedTuple):
    """A job as the list has it: what the operators call its page, its ticket's file, and its places."""

    page: str
    ticket: str
    placed: sotrugla.Page
    spot: sotrugla.Spot


def read(name: str) -> List[Listed]:
    """The jobs of a list. Raises Misused, or Fault where it cannot be read."""
    content = files.read(name)
    # Not an empty folder: a ticket of the name - is a file, not standard input.
    folder = "" if name == files.STANDARD else os.path.dirname(name)
    try:
        return [_listed(f"job {number}", row, folder or ".") for number, row in enumerate(_rows(content), 1)]
    except Misused as misused:
        raise Misused(f"{shown(name)}: {misused}") from misused


def tickets(name: str, jobs: Sequence[Listed]) -> Dict[str, bytes]:
    """The tickets of a list's jobs, by the names of their files: each is read once. Raises Fault."""
    found: Dict[str, bytes] = {}
    for number, job in enumerate(jobs, 1):
        try:
            found[job.ticket] = found[job.ticket] if job.ticket in found else files.content(job.ticket)
        except (OSError, ValueError) as error:  # A name in a list may be none that a file can have.
            words = f"job {number}: ticket {shown(job.ticket)} cannot be read: {reason(error)}"
            raise Fault(name, words) from error
    return found


class _Row(Dict[str, Any]):
    """An object of a JSON file, which may have a key twice."""

    def __init__(self, pairs: Sequence[Tuple[str, Any]]) -> None:
        super().__init__(pairs)
        self.names = [name for name, _ in pairs]


def _rows(content: bytes) -> List[Mapping[str, Any]]:
    """Each with every column, and no other."""
    try:
        text = content.decode("utf-8-sig")
    except UnicodeDecodeError:
        raise Misused("it is no text in UTF-8") from None
    first = text.lstrip()[:1]
    if not first:
        raise Misused("it is empty; a list without jobs is [], or a head line alone")
    if first == "{":
        raise Misused("it begins with {; a list in JSON is an array, and begins with [")
    return _json_rows(text) if first == "[" else _csv_rows(text)


def _json_rows(text: str) -> List[Mapping[str, Any]]:
    try:
        rows = json.loads(text, object_pairs_hook=_Row)
    except json.JSONDecodeError as error:
        raise Misused(f"line {error.lineno}, column {error.colno}: {error.msg}") from None
    except (ValueError, RecursionError) as error:  # A number of thousands of digits, arrays in arrays in arrays.
        raise Misused(reason(error)) from None
    for number, row in enumerate(rows, 1):
        if not isinstance(row, _Row):
            raise Misused(f"job {number}: it is {_quoted(row)}, not an object")
        _see_columns(f"job {number}", row.names)
    return rows


def _csv_rows(text: str) -> List[Mapping[str, Any]]:
    lines = csv.reader(io.StringIO(text, newline=""), skipinitialspace=True, strict=True)
    try:
        head, *rows = [cells for cells in lines if cells]
    except csv.Error as error:
        raise Misused(f"line {lines.line_num}: {error}") from None
    _see_columns("head line", head)
    for number, cells in enumerate(rows, 1):
        if len(cells) < len(head):
            raise Misused(f"job {number}: {head[len(cells)]} is missing")
        if len(cells) > len(head):
            raise Misused(f"job {number}: {_quoted(cells[len(head)])} has no column")
    return [{column: _cell(column, cell) for column, cell in zip(head, cells)} for cells in rows]


def _see_columns(where: str, names: Sequence[str]) -> None:
    for name in names:
        if name not in COLUMNS:
            raise Misused(f"{where}: {_quoted(name)} is unknown; the columns are {', '.join(COLUMNS)}")
        if names.count(name) > 1:
            raise Misused(f"{where}: {name} stands there twice")
    for name in COLUMNS:
        if name not in names:
            raise Misused(f"{where}: {name} is missing")


def _cell(column: str, cell: str) -> Any:
    """What a CSV cell says: all of them are texts there."""
    digits = re.fullmatch("0*([0-9]{1,20})", cell) if column in _NUMBERS else None
    return int(digits[1]) if digits else cell


def _listed(where: str, row: Mapping[str, Any], folder: str) -> Listed:
    for column in _NAMES:
        if not isinstance(row[column], str):
            raise Misused(f"{where}: {column} is {_quoted(row[column])}, not a text")
    for column in _NUMBERS:
        if type(row[column]) is not int or not 0 <= row[column] < 1 << 64:
            raise Misused(f"{where}: {column} is {_quoted(row[column])}, not a whole number from 0, below 2^64")
    page = sotrugla.Page(row["source_offset"], row["width"], row["height"], row["source_stride"])
    spot = sotrugla.Spot(row["output_offset"], row["output_stride"])
    return Listed(row["page"], os.path.join(folder, row["ticket"]), page, spot)


def _quoted(value: Any) -> str:
    text = shown(json.dumps(value, ensure_ascii=False))
    return text if len(text) <= _SHOWN else f"{text[:_SHOWN]}..."
