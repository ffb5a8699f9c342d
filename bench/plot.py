"""Draws time against L as an SVG: openings of the A4 text page, for Sotrugla and each peer, both axes logarithmic."""

import math
import statistics

from measured import OURS, PEERS

COLOURS = {OURS: "#0072b2", "OpenCV": "#d55e00", "Leptonica": "#009e73", "memcpy": "#777777"}
PANELS = {
    "along rows (1,0)": lambda slope: slope == (1, 0),
    "along columns (0,1)": lambda slope: slope == (0, 1),
    "slanted: median, and from least to most": lambda slope: 0 not in slope,
}
LEFT, TOP, WIDTH, HEIGHT, GAP = 70, 70, 270, 300, 40
LENGTHS = (3, 11, 51, 201, 1001)


class Scale:
    """Where a number stands on a logarithmic axis."""

    def __init__(self, least, most, start, end):
        self.least, self.most, self.start, self.end = least, most, start, end

    def __call__(self, number):
        part = math.log(number / self.least) / math.log(self.most / self.least)
        return round(self.start + part * (self.end - self.start), 1)


def drawn(measured):
    series = {title: _panel_series(measured, chosen) for title, chosen in PANELS.items()}
    copied = measured.copies["A4", "text"].in_place
    curves = [by_length for panel in series.values() for by_length in panel.values()]
    powers = [math.log10(ns) for by_length in curves for times in by_length.values() for ns in times]
    down = Scale(10 ** math.floor(min(math.log10(copied), *powers)), 10 ** math.ceil(max(powers)), TOP + HEIGHT, TOP)
    width = LEFT + len(PANELS) * (WIDTH + GAP)
    parts = [
        f'<svg xmlns="http://www.w3.org/2000/svg" viewBox="0 0 {width} {TOP + HEIGHT + 70}" font-family="sans-serif">',
        f'<rect width="{width}" height="{TOP + HEIGHT + 70}" fill="white"/>',
        _text(LEFT, 22, "Opening of an A4 text page (2480 by 3508): time against segment length, one thread", "start", size=15),
        _text(LEFT, 40, f"{measured.facts['machine']}, {measured.facts['date']}", "start", "#555555"),
        _text(0, 0, "ns a pixel", "middle", turned=(18, TOP + HEIGHT / 2)),
    ]
    for at, (title, panel) in enumerate(series.items()):
        left = LEFT + at * (WIDTH + GAP)
        across = Scale(2.5, 1200, left, left + WIDTH)
        parts += [*_frame(title, across, down, left), *_copy_line(copied, down, left)]
        for name, by_length in panel.items():
            parts += _curve(name, by_length, across, down)
    return "\n".join([*parts, *_key(measured, width), "</svg>", ""])


def _panel_series(measured, chosen):
    """For each program the times of the chosen slopes by L."""
    series = {}
    for case, times in measured.times.items():
        if (case.page, case.drawing, case.operation) == ("A4", "text", "opening") and chosen(case.slope):
            for name in (OURS, *PEERS):
                if name in times:
                    series.setdefault(name, {}).setdefault(case.length, []).append(times[name].ns)
    return series


def _text(x, y, words, anchor="middle", colour="#222222", size=12, turned=None):
    place = f'transform="translate({turned[0]} {turned[1]}) rotate(-90)"' if turned else f'x="{x}" y="{y}"'
    return f'<text {place} text-anchor="{anchor}" fill="{colour}" font-size="{size}">{words}</text>'


def _line(x1, y1, x2, y2, colour, extra=""):
    return f'<line x1="{x1}" y1="{y1}" x2="{x2}" y2="{y2}" stroke="{colour}" {extra}/>'


def _frame(title, across, down, left):
    yield _text(left + WIDTH / 2, TOP - 10, title, size=13)
    for power in range(round(math.log10(down.least)), round(math.log10(down.most)) + 1):
        y = down(10**power)
        yield _line(left, y, left + WIDTH, y, "#dddddd")
        yield _text(left - 6, y + 4, f"{10**power:g}", "end")
    for length in LENGTHS:
        x = across(length)
        yield _line(x, TOP, x, TOP + HEIGHT, "#eeeeee")
        yield _text(x, TOP + HEIGHT + 18, str(length))
    yield _text(left + WIDTH / 2, TOP + HEIGHT + 36, "L, pixels")


def _copy_line(copied, down, left):
    yield _line(left, down(copied), left + WIDTH, down(copied), COLOURS["memcpy"], 'stroke-dasharray="5 4"')


def _curve(name, by_length, across, down):
    """A line through the medians; where there are several slopes, a band from the least to the most."""
    colour, lengths = COLOURS[name], sorted(by_length)
    above = [f"{across(length)},{down(max(by_length[length]))}" for length in lengths]
    below = [f"{across(length)},{down(min(by_length[length]))}" for length in reversed(lengths)]
    yield f'<polygon points="{" ".join(above + below)}" fill="{colour}" opacity="0.18"/>'
    points = [(across(length), down(statistics.median(by_length[length]))) for length in lengths]
    yield f'<polyline points="{" ".join(f"{x},{y}" for x, y in points)}" fill="none" stroke="{colour}" stroke-width="2"/>'
    yield from (f'<circle cx="{x}" cy="{y}" r="3" fill="{colour}"/>' for x, y in points)


def _key(measured, width):
    names = [f"{name} {measured.versions[name]}" if name in measured.versions else f"{name}: absent" for name in (OURS, *PEERS)]
    x, y = LEFT, TOP + HEIGHT + 60
    for words, colour in zip([*names, "memcpy of the page"], COLOURS.values()):
        yield _line(x, y - 4, x + 24, y - 4, colour, 'stroke-width="3"')
        yield _text(x + 30, y, words, "start")
        x += (width - LEFT) // 4
