"""How far a run has come, on standard error where that is a terminal, and the lines of pages that were not finished."""

from __future__ import annotations

import sys
from typing import Any


class Lines:
    """No bar: lines alone."""

    def say(self, line: str) -> None:
        print(line, file=sys.stderr, flush=True)

    def advance(self) -> None:
        """One more page has ended."""

    def end(self) -> None:
        """No page is to come."""


class Count(Lines):
    """A line that counts, written over itself."""

    def __init__(self, pages: int) -> None:
        self.ended, self.pages = 0, pages
        self._show()

    def say(self, line: str) -> None:
        # Blanks cover what a longer count leaves behind a short line.
        super().say("\r" + line.ljust(len(self._words())))
        self._show()

    def advance(self) -> None:
        self.ended += 1
        self._show()

    def end(self) -> None:
        print(file=sys.stderr)

    def _words(self) -> str:
        return f"{self.ended} of {self.pages} pages"

    def _show(self) -> None:
        print("\r" + self._words(), end="", file=sys.stderr, flush=True)


class Bar(Lines):
    """tqdm's bar."""

    def __init__(self, tqdm: Any, pages: int) -> None:
        self.bar = tqdm(total=pages, unit="page", file=sys.stderr)

    def say(self, line: str) -> None:
        self.bar.write(line, file=sys.stderr)

    def advance(self) -> None:
        self.bar.update()

    def end(self) -> None:
        self.bar.close()


def progress(pages: int) -> Lines:
    if pages == 1 or not sys.stderr.isatty():
        return Lines()
    try:
        from tqdm import tqdm
    except ImportError:
        return Count(pages)
    return Bar(tqdm, pages)
