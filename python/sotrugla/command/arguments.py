"""The words and options of the command, and its help, which fits a screen of 80 columns by 24 lines."""

from __future__ import annotations

import argparse
import functools
import os
import re
from typing import Any, Dict, List, Sequence, Union

import sotrugla

from .along import Along, along
from .words import WORDS, Word

_USAGE = "sotrugla {} IN.. -o OUT --along DX,DY --length L ..."

_EXAMPLES = """
examples:
  sotrugla {0} scan.pgm -o clean.pgm --along 1,0 --length 5
  sotrugla {0} *.pgm -o clean/ --along 31deg --length 51 --hide 60,30,200,40
"""

_EXAMPLE = """
examples:
  sotrugla close *.pgm -o clean/ --along 31deg --length 51 --hide 60,30,200,40
"""

_STATUS = "Exit status: 0 all pages are finished, 1 some are not, 2 a wrong use.\n"

_FOOT = f"""
Pages are P5 files; with Pillow also PNG, TIFF and BMP, and JPEG to be read.
{_STATUS}"""

_TRAY_USAGE = "sotrugla tray LIST TRAY -o OUT"

_WHY_USAGE = "sotrugla why IN --pixel C,R"

_WHY_FOOT = """
examples:
  sotrugla why scan.pgm --pixel 12,40 --ticket night.ticket --picture why.svg
  sotrugla why scan.pgm --pixel 12,40 --operation close --along 1,0 --length 5
"""

_TRAY_FOOT = f"""
A job has the keys or columns page (its name for you), ticket (a file's name, as
seen from the list's folder), width, height, source_offset, source_stride,
output_offset and output_stride. LIST is a JSON array of jobs, or CSV.

examples:
  sotrugla tray night.csv scans.tray -o clean.tray
  sotrugla tray - scans.tray -o clean.tray --json <night.json

{_STATUS}"""

# The options whose values are numbers.
_NUMBERS = ("--along", "--length", "--origin", "--phase", "--hide", "--pixel", "--jobs")

_LAYOUT = functools.partial(argparse.RawDescriptionHelpFormatter, max_help_position=23)
_SHARED: Dict[str, Any] = {"add_help": False, "allow_abbrev": False, "formatter_class": _LAYOUT}


def parse(words: Sequence[str]) -> argparse.Namespace:
    """The options. Their `error` says a usage error and ends the command, by SystemExit as argparse has it."""
    return _parser().parse_args(_joined(words))


def _joined(words: Sequence[str]) -> List[str]:
    """argparse takes a value like -1,2 for an option, unless it is joined to its own."""
    joined: List[str] = []
    for word in words:
        if joined and joined[-1] in _NUMBERS and re.match("-[0-9]", word):
            joined[-1] += "=" + word
        else:
            joined.append(word)
    return joined


def _parser() -> argparse.ArgumentParser:
    parser = argparse.ArgumentParser(
        prog="sotrugla",
        usage=_USAGE.format("erode|dilate|open|close") + "\n       sotrugla tray|why|show ..., each with a --help",
        description="Cleans grey pages along lines.",
        epilog=_EXAMPLE + _FOOT,
        **_SHARED,
    )
    title = "words, and what they do to strokes on white paper"
    words = parser.add_subparsers(title=title, prog="sotrugla", dest="word", metavar="WORD", required=True)
    for name, word in WORDS.items():
        _add_cleaning(words, name, word)
    _add_tray(words)
    _add_why(words)
    _add_show(words)
    options = parser.add_argument_group("options")
    _add_help(options)
    # One number for both: the package loads no library of another version than its own.
    version = f"sotrugla {sotrugla.__version__} (library {sotrugla.__version__})"
    options.add_argument("--version", action="version", version=version, help="show both versions")
    return parser


def _add_cleaning(words: Any, name: str, word: Word) -> None:
    parser = words.add_parser(
        name,
        usage=_USAGE.format(name),
        help=word.effect,
        description=f"On white paper, {word.effect}.",
        epilog=_EXAMPLES.format(name),
        **_SHARED,
    )
    parser.set_defaults(error=parser.error, operation=name)
    options = parser.add_argument_group("pages and options")
    add = options.add_argument
    add("pages", metavar="IN", nargs="+", help="the pages' files; - is standard input")
    add("-o", metavar="OUT", dest="out", required=True, help="the finished page's file or folder; - is standard output")
    _add_order(options)
    add("--write-ticket", metavar="FILE", help="keep the ticket in this file")
    add("--jobs", metavar="N", type=_jobs, default=_processors(), help="pages at a time (default: the processors)")
    _add_help(options)


def _add_order(options: Any) -> None:
    """What makes a ticket, or a ready one."""
    add = options.add_argument
    add("--along", metavar="DX,DY", type=_along, help="the line's vector, right and down, or an angle: 31deg")
    add("--length", metavar="L", type=_number, help="the segment's steps, 1 to 8192")
    add("--origin", metavar="O", type=_origin, help="the step of its origin, from 0, or centre (default)")
    add("--periodic", action="store_true", default=None, help="a step is the whole vector, not the next pixel")
    add("--phase", metavar="I", type=_number, help="the phase of a connected line (default 0)")
    add("--hide", metavar="BOX", type=_box, action="append", help="hide LEFT,TOP,WIDTH,HEIGHT; up to 64 times")
    add("--ticket", metavar="FILE", help="a ready ticket, in place of these")


def _add_tray(words: Any) -> None:
    told = "run a list of up to 256 jobs on one tray, and print a table"
    description = f"{told.capitalize()} of their answers."
    usage = f"{_TRAY_USAGE} [--json]"
    parser = words.add_parser(
        "tray", usage=usage, help=told, description=description, epilog=_TRAY_FOOT, **_SHARED
    )
    parser.set_defaults(error=parser.error)
    options = parser.add_argument_group("list, trays and options")
    add = options.add_argument
    add("list", metavar="LIST", help="the list's file; - is standard input")
    add("tray", metavar="TRAY", help="the source tray's file")
    out = "the output tray's file: one that exists is written in place, a new one is made as long as TRAY"
    add("-o", metavar="OUT", dest="out", required=True, help=out)
    add("--json", action="store_true", help="print JSON in place of the table")
    _add_help(options)


def _add_why(words: Any) -> None:
    told = "say why a pixel of a page comes out as it does"
    usage = f"{_WHY_USAGE} --ticket FILE [--picture OUT]"
    parser = words.add_parser(
        "why", usage=usage, help=told, description=f"{told.capitalize()}.", epilog=_WHY_FOOT, **_SHARED
    )
    parser.set_defaults(error=parser.error)
    options = parser.add_argument_group("page and options")
    add = options.add_argument
    add("page", metavar="IN", help="the page's file, before it is cleaned; - is standard input")
    add("--pixel", metavar="C,R", type=_pixel, required=True, help="the pixel's column and row, counted from 0")
    add("--picture", metavar="OUT", help="draw it, too, in this .svg file, or with Pillow in a .png")
    add("--json", action="store_true", help="print JSON in place of the sentence")
    add("--operation", metavar="WORD", choices=[*WORDS], help=f"what is ordered: {', '.join(WORDS)}")
    _add_order(options)
    _add_help(options)


def _add_show(words: Any) -> None:
    told = "say in words what a ticket orders"
    parser = words.add_parser("show", help=told, description=f"{told.capitalize()}.", **_SHARED)
    options = parser.add_argument_group("ticket and options")
    options.add_argument("ticket", metavar="TICKET", help="the ticket's file; - is standard input")
    _add_help(options)


def _add_help(options: Any) -> None:
    options.add_argument("-h", "--help", action="help", help="show this help")


def _along(typed: str) -> Along:
    found = along(typed)
    if found is None:
        raise argparse.ArgumentTypeError(f"{typed} is neither a vector like 5,3 nor an angle like 31deg")
    return found


def _number(typed: str) -> int:
    if not re.fullmatch("[0-9]{1,9}", typed):
        raise argparse.ArgumentTypeError(f"{typed} is not a whole number from 0")
    return int(typed)


def _origin(typed: str) -> Union[int, str]:
    if typed != "centre" and not re.fullmatch("[0-9]{1,9}", typed):
        raise argparse.ArgumentTypeError(f"{typed} is neither a step from 0 nor centre")
    return typed if typed == "centre" else int(typed)


def _box(typed: str) -> sotrugla.HiddenBox:
    if not re.fullmatch("[0-9]{1,9}(,[0-9]{1,9}){3}", typed):
        raise argparse.ArgumentTypeError(f"{typed} is not LEFT,TOP,WIDTH,HEIGHT, whole numbers from 0")
    return sotrugla.HiddenBox(*map(int, typed.split(",")))


def _pixel(typed: str) -> sotrugla.Pixel:
    if not re.fullmatch("[0-9]{1,9},[0-9]{1,9}", typed):
        raise argparse.ArgumentTypeError(f"{typed} is not COLUMN,ROW, whole numbers from 0")
    return sotrugla.Pixel(*map(int, typed.split(",")))


def _jobs(typed: str) -> int:
    number = _number(typed)
    if number == 0:
        raise argparse.ArgumentTypeError("at least one page at a time")
    return number


def _processors() -> int:
    """Those that this process may use, where the system says so."""
    return len(os.sched_getaffinity(0)) if hasattr(os, "sched_getaffinity") else os.cpu_count() or 1
