"""Many pages, side by side on threads: the library lets other threads run during a call."""

from __future__ import annotations

import contextlib
import functools
import queue
import threading
import time
from typing import Callable, Iterator, List, Sequence, Union

from . import pages
from .faults import Fault
from .outputs import Route
from .progress import progress

# A call of the library needs 256 KiB, and some systems give a thread half of that.
_STACK = 1 << 20

# How long an interrupted run waits for the pages that are under way.
_PATIENCE = 5.0

Clean = Callable[[Route], None]
# None for a finished page, the line to be said of another, or an error that is not the page's.
End = Union[None, str, Exception]


def clean_all(routes: Sequence[Route], ticket: bytes, jobs: int) -> int:
    """Cleans the pages, at most so many at a time, and says a line for each that is not finished. Answers how many
    these are."""
    clean = functools.partial(pages.clean, ticket=ticket)
    shown, faults = progress(len(routes)), 0
    try:
        with contextlib.closing(_ends(routes, clean, min(jobs, len(routes)))) as ends:
            for end in ends:
                if isinstance(end, Exception):
                    raise end
                if end is not None:
                    faults += 1
                    shown.say(end)
                shown.advance()
    finally:
        shown.end()
    return faults


def _ends(routes: Sequence[Route], clean: Clean, jobs: int) -> Iterator[End]:
    """How each page ended, in the order of their ends."""
    if jobs == 1:
        # Without a thread, a read that waits for more can be interrupted.
        yield from (_end(route, clean) for route in routes)
        return
    waiting, ends, stopped = queue.SimpleQueue(), queue.SimpleQueue(), threading.Event()
    for route in routes:
        waiting.put(route)

    def work() -> None:
        with contextlib.suppress(queue.Empty):
            while not stopped.is_set():
                ends.put(_end(waiting.get_nowait(), clean))

    workers = _started(work, jobs)
    try:
        yield from (ends.get() for _ in routes)
    finally:
        stopped.set()
        until = time.monotonic() + _PATIENCE
        for worker in workers:
            worker.join(max(0.0, until - time.monotonic()))


def _end(route: Route, clean: Clean) -> End:
    try:
        clean(route)
    except Fault as fault:
        return str(fault)  # The fault itself would keep the page in memory.
    except Exception as error:
        return error
    return None


def _started(work: Callable[[], None], count: int) -> Sequence[threading.Thread]:
    """Threads that do not hold up the end of an interrupted run: so many, or as many as the system starts."""
    workers: List[threading.Thread] = []
    before = threading.stack_size(_STACK)
    try:
        while len(workers) < count:
            worker = threading.Thread(target=work, daemon=True)
            worker.start()
            workers.append(worker)
    except RuntimeError:
        if not workers:
            raise
    finally:
        threading.stack_size(before)
    return workers
