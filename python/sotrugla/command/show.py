"""A ticket in words."""

from __future__ import annotations

import sotrugla

from ..tickets import middle
from .along import angle_of
from .words import WORDS, word_of


def in_words(ticket: sotrugla.Ticket) -> str:
    word = word_of(ticket.operation)
    line = "connected" if ticket.line == sotrugla.CONNECTED else "periodic"
    where = f"step {ticket.origin} of 0 to {ticket.length - 1}"
    if ticket.origin == middle(ticket.length):
        where += ", its middle"
    rows = [
        ("operation", f"{word}: {WORDS[word].effect}"),
        ("line", f"{line}, along {ticket.dx},{ticket.dy} ({angle_of(ticket.dx, ticket.dy):.2f}deg)"),
        ("phase", str(ticket.phase)),
        ("length", "1 step" if ticket.length == 1 else f"{ticket.length} steps"),
        ("origin", where),
    ]
    boxes = [f"left {box.left}, top {box.top}, width {box.width}, height {box.height}" for box in ticket.boxes]
    rows += [("hidden", box) for box in boxes or ["nothing"]]
    return "".join(f"{name:11}{words}\n" for name, words in rows)
