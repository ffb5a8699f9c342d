"""What bench/measure printed, as numbers: see the head of measure.c for its lines."""

import collections
import typing

OURS, BOXED = "Sotrugla", "64 boxes"
PEERS = ("OpenCV", "Leptonica")


class Case(typing.NamedTuple):
    """What a time is of, whatever the program."""

    page: str
    drawing: str
    operation: str
    slope: tuple
    length: int

    def __str__(self):
        return f"{self.page} {self.drawing}, {self.operation}, slope {slope_text(self.slope)}, L {self.length}"


class Time(typing.NamedTuple):
    ns: float  # a pixel
    pixels: int  # timed: fewer than the page has where a call on it would take too long


class Reading(typing.NamedTuple):
    """ns a pixel of reading a page's P5 file, and of an opening of that page."""

    ns: float
    opening_ns: float
    pixels: int


class Tray(typing.NamedTuple):
    """Seconds of a list by a call for each job and by one call for all, best of each; and what one call took as a
    multiple of the other way, the median of so many pairs of runs right behind each other."""

    jobs: int
    pairs: int
    each: float
    once: float
    ratio: float


class Question(typing.NamedTuple):
    """Seconds of the longest answer to why a pixel came out so, of so many asked about, and of the job itself."""

    boxes: int
    asked: int
    longest: float
    job: float


class Drawing(typing.NamedTuple):
    """Seconds of a question at L = 1, which fills a line's table, and of that table by a division for each column."""

    question: float
    divided: float


class Copy(typing.NamedTuple):
    """ns a pixel of a memcpy of the page, and of one through pages in turn."""

    in_place: float
    in_turn: float
    pixels: int


def slope_text(slope):
    return f"({slope[0]},{slope[1]})"


class Measured:
    def __init__(self, path):
        self.facts, self.versions, self.checked = {}, {}, []
        self.copies, self.times = {}, collections.defaultdict(dict)
        self.document001, self.readings, self.trays, self.questions = collections.defaultdict(list), {}, {}, {}
        self.drawings = {}
        with open(path, encoding="utf-8") as lines:
            for line in lines:
                self._take(*line.rstrip("\n").split("\t"))

    def _take(self, kind, *words):
        if kind == "program":
            self.versions[words[0]] = words[1]
        elif kind == "checked":
            self.checked.append(words[0])
        elif kind == "memcpy":
            pixels = int(words[2])
            self.copies[words[0], words[1]] = Copy(*(1e9 * float(word) / pixels for word in words[3:5]), pixels)
        elif kind == "time":
            self._take_time(*words)
        elif kind == "document001":
            self.document001[words[0]].append([float(word) for word in words[3:6]])
        elif kind == "reading":
            self._take_reading(*words)
        elif kind == "tray":
            self._take_tray(*words)
        elif kind == "why":
            self._take_question(*words)
        elif kind == "drawing":
            self.drawings[f"slope {slope_text(words[:2])}"] = Drawing(*map(float, words[2:]))
        else:
            self.facts[kind] = words[0]

    def _take_time(self, page, drawing, program, operation, dx, dy, length, boxes, pixels, seconds, _calls):
        case = Case(page, drawing, operation, (int(dx), int(dy)), int(length))
        name = BOXED if int(boxes) else program
        self.times[case][name] = Time(1e9 * float(seconds) / int(pixels), int(pixels))

    def _take_reading(self, page, drawing, dx, dy, length, pixels, *seconds):
        case = Case(page, drawing, "opening", (int(dx), int(dy)), int(length))
        self.readings[case] = Reading(*(1e9 * float(word) / int(pixels) for word in seconds), int(pixels))

    def _take_tray(self, page, drawing, dx, dy, length, finished, jobs, pairs, *figures):
        case = Case(page, drawing, "opening", (int(dx), int(dy)), int(length))
        self.trays[f"{case}, {finished}"] = Tray(int(jobs), int(pairs), *map(float, figures))

    def _take_question(self, page, drawing, operation, dx, dy, length, boxes, asked, *seconds):
        case = Case(page, drawing, operation, (int(dx), int(dy)), int(length))
        with_boxes = f"{case}, {boxes} boxes" if int(boxes) else str(case)
        self.questions[with_boxes] = Question(int(boxes), int(asked), *map(float, seconds))

    def copy_of(self, case):
        return self.copies[case.page, case.drawing]

    def ratio(self, case, name, other):
        """The time of one program as a multiple of another's, or None where either has none."""
        times = self.times.get(case, {})
        return times[name].ns / times[other].ns if name in times and other in times else None
