"""Holds the times to what the benchmark must show. This is a report: what misses is named, and nothing fails."""

from measured import BOXED, OURS

# One call for a list of jobs, at most so many times what a call for each takes.
ONE_TO_EACH = 1.02


def lines(measured):
    yield "What the benchmark must show"
    yield from _steady(measured)
    yield from _faster_than_opencv(measured)
    yield from _near_memcpy(measured)
    yield from _cheap_boxes(measured)
    yield from _cheap_reading(measured)
    yield from _cheap_lists(measured)
    yield from _prompt_answers(measured)
    yield from _no_slower_than_dividing(measured)


def _verdict(what, figures, limit, least=False, digits=2):
    """figures: a ratio for each case. At most the limit, or with least at least, else the case is named."""
    if not figures:
        yield f"  not measured  {what}"
        return
    missed = {case: ratio for case, ratio in figures.items() if (ratio < limit if least else ratio > limit)}
    worst = (min if least else max)(figures, key=figures.get)
    yield (
        f"  {'MISSED' if missed else 'met'}  {what}: {len(figures) - len(missed)} of {len(figures)} cases;"
        f" the worst {figures[worst]:.{digits}f} ({worst})"
    )
    yield from (f"      misses: {case}: {ratio:.{digits}f}" for case, ratio in missed.items())


def _openings(measured, length=None):
    return [case for case in measured.times if case.operation == "opening" and length in (None, case.length)]


def _steady(measured):
    own = {case: case._replace(length=51) for case in _openings(measured) if case.length >= 11 and case.length != 51}
    times = measured.times
    figures = {case: times[case][OURS].ns / times[base][OURS].ns for case, base in own.items() if base in times}
    yield "(a) the time does not grow with L"
    yield from _verdict("opening at L from 11 to 1001, at most 1.5 times its own time at L = 51", figures, 1.5)


def _against_opencv(measured, length):
    figures = {case: measured.ratio(case, "OpenCV", OURS) for case in _openings(measured, length)}
    return {case: ratio for case, ratio in figures.items() if ratio is not None}


def _faster_than_opencv(measured):
    slower = {case: 1 / ratio for case, ratio in _against_opencv(measured, 3).items()}
    yield "(b) against OpenCV"
    middle, long = _against_opencv(measured, 51), _against_opencv(measured, 201)
    yield from _verdict("opening at L = 51, faster: OpenCV takes more than our time", middle, 1, least=True)
    yield from _verdict("opening at L = 201, at least 4 times faster", long, 4, least=True)
    yield from _verdict("opening at L = 3, at most 4 times slower", slower, 4)


def _near_memcpy(measured):
    yield "(c) against memcpy, A4 page"
    yield from _times_memcpy(measured, "to one place", lambda copy: copy.in_place)
    yield "    a job's trays and scratch, four pages, may be larger than the last cache where two are not; so also against"
    yield from _times_memcpy(measured, "through pages that take turns", lambda copy: copy.in_turn)


def _times_memcpy(measured, how, ns):
    cases = [case for case in _openings(measured, 51) if case.page == "A4"]
    figures = {case: measured.times[case][OURS].ns / ns(measured.copy_of(case)) for case in cases}
    down = {case: ratio for case, ratio in figures.items() if case.slope == (0, 1)}
    others = {case: ratio for case, ratio in figures.items() if case.slope != (0, 1)}
    yield from _verdict(f"opening at L = 51 along (0,1), under 12 times memcpy {how}", down, 12)
    yield from _verdict(f"opening at L = 51 along every other slope, under 20 times memcpy {how}", others, 20)


def _cheap_boxes(measured):
    figures = {case: measured.ratio(case, BOXED, OURS) for case in measured.times}
    yield "(d) hidden boxes"
    yield from _verdict("64 boxes of 300 by 60 pixels, at most 1.3 times the same job with none", figures, 1.3)


def _cheap_reading(measured):
    figures = {case: reading.ns / reading.opening_ns for case, reading in measured.readings.items()}
    yield "(e) P5 files"
    yield from _verdict("reading a file's header and pixels, under 0.1 of an opening of its page", figures, 0.1, digits=3)


def _cheap_lists(measured):
    figures = {case: tray.ratio for case, tray in measured.trays.items()}
    yield "(f) lists of jobs"
    what = f"256 jobs in one call, at most {ONE_TO_EACH} times 256 calls"
    yield from _verdict(what, figures, ONE_TO_EACH, digits=3)


def _prompt_answers(measured):
    usual = {case: 1e3 * one.longest for case, one in measured.questions.items() if case.startswith("A4")}
    longest = {case: one.longest for case, one in measured.questions.items() if not case.startswith("A4")}
    yield "(g) why a pixel came out so"
    yield from _verdict("an answer of an A4 page at L = 51, in milliseconds at most 1", usual, 1, digits=3)
    yield from _verdict("one of 8192 by 1 pixels at L = 8192, in seconds at most 1", longest, 1, digits=3)


def _no_slower_than_dividing(measured):
    figures = {slope: drawing.question / drawing.divided for slope, drawing in measured.drawings.items()}
    yield "(h) a line drawn by the running error term"
    yield from _verdict("a question that fills a table of 8192 columns, at most that table by divisions", figures, 1)
