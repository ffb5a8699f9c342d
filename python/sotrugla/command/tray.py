"""A whole tray: the jobs of a list, run by one call of the library on two mapped trays."""

from __future__ import annotations

from typing import Dict, List, Sequence

import sotrugla
from sotrugla.refusals import MOST_JOBS, WIDEST_STRIDE

from . import files, listing, mapping, outputs, table
from .faults import Fault, Misused
from .listing import Listed


def clean(name: str, tray: str, out: str, as_json: bool) -> bool:
    """Runs the list of this name, prints its answers, and says whether all pages are finished. Raises Misused and
    Fault."""
    if files.STANDARD in (tray, out):
        raise Misused("trays are mapped: they are files, not standard input and standard output")
    if outputs.is_folder(out):
        raise Misused(f"{out} is a folder, and the output tray a file")
    jobs = listing.read(name)
    pages = [job.page for job in jobs]
    try:
        _see_count(jobs)
        tickets = listing.tickets(name, jobs)
        outputs.see_apart([name, tray, *tickets], [out])
        results = _results(jobs, tickets, tray, out)
    except sotrugla.Refused as refused:
        if as_json:
            files.put(files.STANDARD, table.refused_in_json(refused).encode())
        raise Fault(name, str(refused)) from refused
    told = table.in_json(pages, results) if as_json else table.in_words(pages, results)
    files.put(files.STANDARD, told.encode())
    return all(result.refused is None for result in results)


def _see_count(jobs: Sequence[Listed]) -> None:
    """Lets the library refuse a list that is too long, before any of its tickets and trays is looked at."""
    if len(jobs) > MOST_JOBS:
        listed = [sotrugla.TrayJob(b"", job.placed, job.spot) for job in jobs]
        sotrugla.run_tray(listed, b"", bytearray(), bytearray())


def _results(jobs: Sequence[Listed], tickets: Dict[str, bytes], tray: str, out: str) -> List[sotrugla.Result]:
    listed = [sotrugla.TrayJob(tickets[job.ticket], job.placed, job.spot) for job in jobs]
    spans = [_span(job) for job in jobs if _is_placed(job)]
    with mapping.to_read(tray) as source:
        with mapping.to_write(out, len(source), spans, like=tray) as output:
            try:
                return sotrugla.run_tray(listed, source, output)
            except MemoryError as error:
                raise Fault(tray, "cannot be cleaned: there is not enough memory") from error


def _is_placed(job: Listed) -> bool:
    """Whether its sides and strides are allowed: a job that is refused for them may name any place, and writes none."""
    strides = job.placed.stride, job.spot.stride
    allowed = all(job.placed.width <= stride <= WIDEST_STRIDE for stride in strides)
    return allowed and sotrugla.scratch_needed(job.placed.width, job.placed.height) > 0


def _span(job: Listed) -> mapping.Span:
    """From the first pixel of the job's page in the output through its last."""
    return mapping.Span(job.spot.offset, (job.placed.height - 1) * job.spot.stride + job.placed.width)
