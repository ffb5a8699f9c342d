"""Filters the pages of a tray in one call and prints a line for each job of the list: `done W` and the pixels row by
row, or `refused N at P`; a refusal's sentence goes to standard error. A list that is refused has one such line.
Standard input is inputs of the page program, one behind the other: each is width, height and ticket length, two bytes
each, big-endian, then the ticket, then the pixels row by row."""

import io
import pathlib
import struct
import sys

sys.path.insert(0, str(pathlib.Path(__file__).parents[2] / "python"))
import sotrugla


def read(given):
    """The jobs and the source tray. A page stands behind the pages before, and so it will in the output."""
    jobs, tray = [], bytearray()
    for head in iter(lambda: given.read(6), b""):
        width, height, size = struct.unpack(">3H", head)
        page = sotrugla.Page(offset=len(tray), width=width, height=height, stride=width)
        jobs.append(sotrugla.TrayJob(given.read(size), page, sotrugla.Spot(offset=page.offset, stride=width)))
        tray += given.read(width * height)
    return jobs, tray


def print_refused(refused):
    print(f"refused {refused.refusal} at {refused.place}")
    print(refused.sentence, file=sys.stderr)


def main():
    jobs, tray = read(io.BytesIO(sys.stdin.buffer.read()))
    output = bytearray(len(tray))
    try:
        results = sotrugla.run_tray(jobs, tray, output)
    except sotrugla.Refused as refused:
        return print_refused(refused)
    for (_, page, _), (work, refused) in zip(jobs, results):
        if refused:
            print_refused(refused)
        else:
            print("done", work, *output[page.offset : page.offset + page.width * page.height])


main()
