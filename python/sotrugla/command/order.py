"""What is ordered: the ticket that the options make, or a ready one."""

from __future__ import annotations

import argparse

import sotrugla

from . import files
from .faults import Fault, Misused
from .words import WORDS, word_of

# The options that make a ticket, which a ready one stands for. Each is None where it is not given.
_MAKING = ("along", "length", "origin", "periodic", "phase", "hide")


def ticket_of(options: argparse.Namespace) -> bytes:
    """Raises Refused where the options make a ticket that is refused, and Fault where a ready one is."""
    return _made(options) if options.ticket is None else _ready(options)


def read_ticket(name: str) -> sotrugla.Ticket:
    """The ticket in a file. Raises Fault."""
    return _read(name, files.read(name))


def _read(name: str, content: bytes) -> sotrugla.Ticket:
    try:
        return sotrugla.read_ticket(content)
    except sotrugla.Refused as refused:
        raise Fault(name, str(refused)) from refused


def _ready(options: argparse.Namespace) -> bytes:
    given = [f"--{name}" for name in _MAKING if getattr(options, name) is not None]
    if given:
        raise Misused(f"--ticket orders everything; leave out {', '.join(given)}")
    content = files.read(options.ticket)
    ordered = word_of(_read(options.ticket, content).operation)
    if options.operation not in (None, ordered):
        raise Misused(f"{options.ticket} orders {ordered}, not {options.operation}")
    return content


def _made(options: argparse.Namespace) -> bytes:
    if options.operation is None:
        raise Misused("give --operation, --along and --length, or --ticket")
    if options.along is None or options.length is None:
        raise Misused("give --along and --length, or --ticket")
    ticket = WORDS[options.operation].make(
        along=(options.along.dx, options.along.dy),
        length=options.length,
        origin="centre" if options.origin is None else options.origin,
        periodic=bool(options.periodic),
        phase=options.phase or 0,
        hide=options.hide or [],
    )
    try:
        encoded = ticket.encode()
    except OverflowError as error:
        raise Misused(str(error)) from error
    sotrugla.read_ticket(encoded)
    return encoded
