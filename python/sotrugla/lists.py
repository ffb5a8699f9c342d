"""Lists of jobs: a whole tray filtered in one call."""

from __future__ import annotations

import contextlib
import ctypes
import itertools
import typing

from .lending import Lent, lent, lent_to_write, see_apart
from .library import Outcome, answer
from .refusals import HEAD, MOST_JOBS, Refused, judged, refused
from .tickets import Ticket, bytes_of
from .trays import Page, Places, Spot, scratch_needed

if typing.TYPE_CHECKING:
    from _typeshed import ReadableBuffer, WriteableBuffer

# The numbers of an answer.
_ANSWER_NUMBERS = 3


class TrayJob(typing.NamedTuple):
    """A job of a list: its ticket, a Ticket or its bytes, its page in the source tray, and where that goes in the
    output tray."""

    ticket: typing.Union[Ticket, ReadableBuffer]
    page: Page
    spot: Spot


class Result(typing.NamedTuple):
    """How a job of a list ended: the work of a finished one, or 0 and what run would raise for it."""

    work: int
    refused: typing.Optional[Refused]


def run_tray(
    jobs: typing.Iterable[TrayJob],
    source: ReadableBuffer,
    output: WriteableBuffer,
    scratch: typing.Optional[WriteableBuffer] = None,
) -> list[Result]:
    """Runs a list of up to 256 jobs on one source tray, one output tray and one scratch, and answers each. The rest
    goes on behind a refused job. Raises Refused where the list itself is refused, for more than 256 jobs (18), before
    any of them; then nothing was written.

    Answers, trays and scratch are those of single calls of run in list order. Where places in the output overlap, the
    bytes of the last finished job stand. Without a scratch one is made, for the job that needs the most.

    >>> ticket, page = Ticket.opening(along=(1, 0), length=2), Page(offset=0, width=3, height=1, stride=3)
    >>> jobs = [TrayJob(ticket, page._replace(offset=at), Spot(offset=at, stride=3)) for at in (0, 3, 5)]
    >>> output = bytearray(7)
    >>> for result in run_tray(jobs, bytes([9, 1, 5, 7, 3, 8, 77]), output):
    ...     print(result.refused or f"done, {result.work} comparisons")
    done, 6 comparisons
    done, 6 comparisons
    refused 11 at 0: the source page does not fit its tray
    >>> list(output)
    [9, 1, 1, 7, 3, 3, 0]
    """
    listed = list(jobs)
    places = [_places(job, number) for number, job in enumerate(listed)]
    if scratch is None:
        scratch = bytearray(max((scratch_needed(place.width, place.height) for place in places), default=0))
    with contextlib.ExitStack() as stack:
        orders = [stack.enter_context(_order(job, number)) for number, job in enumerate(listed)]
        tray = stack.enter_context(lent(source, "the source"))
        to_output = stack.enter_context(lent_to_write(output, "the output"))
        to_scratch = stack.enter_context(lent_to_write(scratch, "the scratch"))
        see_apart([*orders, tray], [to_output, to_scratch])
        answers = _answers(orders, places, [*tray, *to_output, *to_scratch])
        heads = [order.first(HEAD) for order in orders]
    judgements = map(refused, answers, heads, map(Places.judged, places))
    return [Result(found.work, judgement) for found, judgement in zip(answers, judgements)]


def _places(job: TrayJob, number: int) -> Places:
    if not isinstance(job, TrayJob):
        raise TypeError(f"job {number} is of type {type(job).__name__}, not a TrayJob")
    return Places.of(job.page, job.spot, f"job {number}: ")


def _order(job: TrayJob, number: int) -> typing.ContextManager[Lent]:
    """The job's ticket, lent as run lends it: no buffer that is written may overlap it."""
    try:
        encoded = bytes_of(job.ticket)
    except (OverflowError, TypeError) as error:  # Its words name the field alone.
        raise type(error)(f"job {number}: {error}") from None
    return lent(encoded, f"job {number}: the ticket")


def _answers(orders: list[Lent], places: list[Places], trays: list[int]) -> list[Outcome]:
    """The library's answer to each job. It takes the tickets laid end to end."""
    starts = itertools.accumulate((order.length for order in orders), initial=0)
    listed = zip(starts, orders, places)
    numbers = [number for start, order, place in listed for number in (start, order.length, *place)]
    tickets = b"".join(order.first(order.length) for order in orders)
    jobs, answers = (ctypes.c_uint64 * len(numbers))(*numbers), (Outcome * MOST_JOBS)()
    given = (jobs, len(numbers), tickets, len(tickets), *trays, answers, MOST_JOBS * _ANSWER_NUMBERS)
    judged(answer("sotrugla_run_tray", len(orders), *given))
    return answers[: len(orders)]
