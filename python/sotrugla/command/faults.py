"""What ends a run, or one page of it, in words for the operator."""

from __future__ import annotations


class Misused(Exception):
    """A usage error: nothing was done."""


class Fault(Exception):
    """What is wrong with a file. Its words are the line that the operator reads."""

    def __init__(self, name: str, words: str) -> None:
        super().__init__(f"{shown(name)}: {words}")


def shown(name: str) -> str:
    """A name in one line, which tells a terminal nothing."""
    return "".join(letter if letter.isprintable() else ascii(letter)[1:-1] for letter in name)


def reason(error: Exception) -> str:
    """An error's own words, without the number and the name that Python adds to a system's error."""
    return getattr(error, "strerror", None) or str(error) or type(error).__name__
