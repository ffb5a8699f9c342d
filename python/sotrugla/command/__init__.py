"""The command `sotrugla`: pages from files to files, as options or a ready ticket order."""

from __future__ import annotations

import argparse
import contextlib
import os
import signal
import sys
import threading
from typing import Iterator, List, Optional, Sequence

import sotrugla

from . import arguments, batch, files, order, outputs, show, tray, why
from .faults import Fault, Misused

FINISHED, NOT_FINISHED, WRONG_USE, INTERRUPTED, TERMINATED = 0, 1, 2, 130, 143


def main(argv: Optional[Sequence[str]] = None) -> int:
    """Runs the command and answers its exit status."""
    if sys.stderr is None:  # It is closed, and print would write to standard output in its place.
        sys.stderr = open(os.devnull, "w")
    try:
        with _terminated_as_interrupted():
            status = _run(sys.argv[1:] if argv is None else argv)
        if sys.stdout:
            sys.stdout.flush()
        return status
    except KeyboardInterrupt:
        return INTERRUPTED
    except BrokenPipeError:
        # Nobody reads standard output any more. Python would try once more at its exit, and complain.
        os.dup2(os.open(os.devnull, os.O_WRONLY), 1)
        return NOT_FINISHED


@contextlib.contextmanager
def _terminated_as_interrupted() -> Iterator[None]:
    """A termination leaves no parts of pages either. Python lets the main thread alone see to it."""
    if threading.current_thread() is not threading.main_thread():
        yield
        return
    before = signal.signal(signal.SIGTERM, lambda *_: sys.exit(TERMINATED))
    try:
        yield
    finally:
        signal.signal(signal.SIGTERM, before)


def _run(words: Sequence[str]) -> int:
    try:
        return _done(arguments.parse(words))
    except SystemExit as end:  # argparse has said its help, its version or a usage error; or it is terminated.
        return int(end.code or FINISHED)
    except Fault as fault:
        print(fault, file=sys.stderr)
        return NOT_FINISHED


def _done(options: argparse.Namespace) -> int:
    try:
        return _WORDS.get(options.word, _clean)(options)
    except Misused as misused:
        return options.error(str(misused))
    except sotrugla.Refused as refused:  # That of a ticket which the options make.
        print(refused, file=sys.stderr)
        return WRONG_USE


def _show(options: argparse.Namespace) -> int:
    files.put(files.STANDARD, show.in_words(order.read_ticket(options.ticket)).encode())
    return FINISHED


def _tray(options: argparse.Namespace) -> int:
    finished = tray.clean(options.list, options.tray, options.out, options.json)
    return FINISHED if finished else NOT_FINISHED


def _why(options: argparse.Namespace) -> int:
    pictures = _named(options.picture)
    for picture in pictures:
        why.see_picture(picture)
    outputs.see_apart([options.page] + _named(options.ticket), pictures)
    ticket = _ordered(options)
    why.answer(options.page, ticket, options.pixel, options.picture, options.json)
    return FINISHED


def _clean(options: argparse.Namespace) -> int:
    copies = _named(options.write_ticket)
    routes = outputs.routes(options.pages, options.out)
    outputs.see_apart(options.pages + _named(options.ticket), [route.output for route in routes] + copies)
    ticket = _ordered(options)
    outputs.make_folder(options.out, routes)
    for name in copies:
        files.put(name, ticket)
    return NOT_FINISHED if batch.clean_all(routes, ticket, options.jobs) else FINISHED


def _named(option: Optional[str]) -> List[str]:
    return [] if option is None else [option]


def _ordered(options: argparse.Namespace) -> bytes:
    """The ticket. Who typed an angle is told its vector."""
    ticket = order.ticket_of(options)
    if options.along is not None and options.along.note:
        print(options.along.note, file=sys.stderr)
    return ticket


# The words that do not clean pages by files.
_WORDS = {"show": _show, "tray": _tray, "why": _why}
