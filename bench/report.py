"""Makes the table and the plot: report.py MEASURED TABLE PLOT. The table is also printed."""

import sys

import plot
import verdicts
from measured import BOXED, OURS, PEERS, Measured, slope_text

LEGEND = """\
One thread; ns are CPU time of the thread for one pixel, best of several calls. The origin is the segment's middle.
Pages: A4 is 2480 by 3508 pixels (300 dpi), 8192 is 8192 by 8192. text: white with text-like specks and long rules; noise: bytes
by chance.
x memcpy: the time as a multiple of a memcpy of the page in the same run (to one place, best of many).
64 boxes: the same job with 64 hidden boxes of 300 by 60 pixels. x none: as a multiple of the job with no box.
x ours: the peer's time as a multiple of Sotrugla's with no box; above 1 Sotrugla is the faster.
OpenCV: a rectangle for (1,0) and (0,1), which it separates; else the line's L pixels. Leptonica: van Herk, rows and columns only.
~ timed on the page's first rows only, because one call on the page would take over 2 seconds.
"""


def head(measured):
    facts, versions = measured.facts, measured.versions
    yield f"Speed of Sotrugla {versions[OURS]}, {facts['date']}, made by bench/run in {facts['took']} s"
    yield f"Machine: {facts['machine']}; last cache {facts['cache']}; {facts['compiler']}"
    for peer in PEERS:
        yield f"{peer}: {versions[peer]}" if peer in versions else f"{peer}: absent"
    yield ""
    yield from LEGEND.splitlines()
    yield ""
    for (page, drawing), copy in measured.copies.items():
        yield (
            f"memcpy of {page} {drawing}: {copy.in_place:.4f} ns a pixel, {copy.in_place * copy.pixels / 1e6:.3f} ms;"
            f" through pages that take turns in 512 MB: {copy.in_turn:.4f} ns, {copy.in_turn * copy.pixels / 1e6:.3f} ms"
        )
    yield from (f"checked: {what}" for what in measured.checked)
    yield ""


def ns_text(measured, case, name):
    time = measured.times[case].get(name)
    if not time:
        return "absent" if name in PEERS and name not in measured.versions else "-"
    return f"{time.ns:.3f}" + ("~" if time.pixels < measured.copy_of(case).pixels else " ")


def ratio_text(ratio):
    return "-" if ratio is None else f"{ratio:.2f}"


def row(measured, case):
    copied = measured.times[case][OURS].ns / measured.copy_of(case).in_place
    cells = [case.page, case.drawing, case.operation, slope_text(case.slope), str(case.length)]
    cells += [ns_text(measured, case, OURS), f"{copied:.1f}"]
    cells += [ns_text(measured, case, BOXED), ratio_text(measured.ratio(case, BOXED, OURS))]
    for peer in PEERS:
        cells += [ns_text(measured, case, peer), ratio_text(measured.ratio(case, peer, OURS))]
    return cells


def table(measured):
    """Cells under their headings, in columns just wide enough; a line between groups of one slope."""
    names = ["page", "drawing", "operation", "slope", "L", "ours ns ", "x memcpy", "64 boxes ns ", "x none"]
    for peer in PEERS:
        names += [f"{peer} ns ", "x ours"]
    rows = [row(measured, case) for case in measured.times]
    widths = [max(map(len, column)) for column in zip(names, *rows)]
    previous = names
    for cells in [names, *rows]:
        if cells[:4] != previous[:4]:
            yield ""
        texts = [cell.ljust(width) for cell, width in zip(cells[:4], widths)]
        yield "  ".join(texts + [cell.rjust(width) for cell, width in zip(cells[4:], widths[4:])]).rstrip()
        previous = cells
    yield ""


def document001(measured):
    yield "Document 001's experiment: salt-and-pepper page of 240 by 256, probability 0.25, L = 150, all orientations"
    yield "(published there: a speed-up of 5 over the conventional method, on an average over all orientations, on a SUN Sparc-2)"
    yield "Conventional by pixel: for each pixel the L pixels of its translated segment. By page: the L translates of the whole page,"
    yield "of which the compiler does many pixels at once. Both find the border buffered before, as in the document."
    for operation, times in measured.document001.items():
        conventional = [speed_up(times, 1, "by pixel"), speed_up(times, 2, "by page")]
        yield f"{operation}, {len(times)} orientations: ours {mean_us(times, 0):.0f} us; {'; '.join(conventional)}"
    yield ""


def mean_us(times, column):
    return 1e6 * sum(row[column] for row in times) / len(times)


def speed_up(times, column, name):
    mean, lowest = mean_us(times, column), min(row[column] / row[0] for row in times)
    return f"{name} {mean:.0f} us, speed-up {mean / mean_us(times, 0):.1f} (least {lowest:.1f})"


def readings(measured):
    yield "Reading a P5 file (sotrugla_read_pgm): its header, and its pixels held to a maximum of 254; beside an opening of that page"
    for case, (ns, opening, pixels) in measured.readings.items():
        times = f"reading {ns:.4f} ns a pixel, {ns * pixels / 1e6:.3f} ms; opening {opening:.3f} ns, {opening * pixels / 1e6:.2f} ms"
        yield f"{case}: {times}; reading / opening {ns / opening:.3f}"
    yield ""


def trays(measured):
    yield "A list of 256 jobs in one call (sotrugla_run_tray), beside a call of sotrugla_run for each, in list order"
    yield "The pages stand side by side in one tray. Both ways gave the same answers and output before they were timed."
    yield "us a job: the best run of each way. one / each: the median of pairs of runs, one right behind the other,"
    yield f"either way first in turn; the aim is at most {verdicts.ONE_TO_EACH}."
    for case, tray in measured.trays.items():
        times = f"each {1e6 * tray.each / tray.jobs:.3f} us a job, one {1e6 * tray.once / tray.jobs:.3f} us"
        met = "met" if tray.ratio <= verdicts.ONE_TO_EACH else "MISSED"
        yield f"{case}: {times}; one / each {tray.ratio:.3f} ({tray.pairs} pairs), {met}"
    yield ""


def questions(measured):
    yield "Why a pixel came out so (sotrugla_why): the longest answer, of pixels from end to end, beside the job"
    for case, question in measured.questions.items():
        times = f"{1e3 * question.longest:.3f} ms of {question.asked} pixels, the job {1e3 * question.job:.3f} ms"
        yield f"{case}: {times}; answer / job {question.longest / question.job:.4f}"
    yield ""


def drawings(measured):
    yield "A line's table of 8192 columns, by the running error term: a question at L = 1, which is little else,"
    yield "beside that table by a division for each column, in C"
    for slope, (question, divided) in measured.drawings.items():
        times = f"question {1e6 * question:.2f} us, divided {1e6 * divided:.2f} us"
        yield f"{slope}: {times}; question / divided {question / divided:.2f}"
    yield ""


def main(measured_path, table_path, plot_path):
    measured = Measured(measured_path)
    lines = [*head(measured), *table(measured), *document001(measured), *readings(measured), *trays(measured)]
    lines += [*questions(measured), *drawings(measured)]
    lines += verdicts.lines(measured)
    text = "\n".join(lines) + "\n"
    with open(table_path, "w", encoding="utf-8") as out:
        out.write(text)
    with open(plot_path, "w", encoding="utf-8") as out:
        out.write(plot.drawn(measured))
    print(text, end="")


main(*sys.argv[1:])
