"""Reasons of pixels: that they name the grey that the job writes, each refusal, and the sentences."""

import itertools
import pickle
import re
import unittest

import sotrugla
from sotrugla import CLOSE, CONNECTED, DILATE, ERODE, HIDDEN_BOX, ONE_PASS, OPEN, PERIODIC, TWO_PASSES
from sotrugla import HiddenBox, Page, Pixel, Reason, Refused, Spot, library

from .jobs import ROOT, greys, installed, ticket

numpy, pillow = installed("numpy"), installed("PIL.Image")

PAGE = Page(offset=3, width=7, height=5, stride=9)
# Few greys, so that several steps of a window have the result.
TRAY = greys(PAGE.offset + PAGE.height * PAGE.stride, 1, 4)
BOXES = [HiddenBox(1, 1, 2, 1), HiddenBox(2, 1, 3, 3)]
PIXELS = [Pixel(column, row) for row in range(PAGE.height) for column in range(PAGE.width)]
ROW = bytes([97, 98, 99, 98])


def tickets():
    """Every operation along lines of every kind, two boxes hidden."""
    vectors = [(1, 0), (0, 1), (1, 1), (2, -1), (-1, 2), (5, 3), (3, -2)]
    for operation, (dx, dy) in itertools.product((ERODE, DILATE, OPEN, CLOSE), vectors):
        last = max(abs(dx), abs(dy)) - 1
        for line, phase in ((CONNECTED, 0), (CONNECTED, last), (PERIODIC, 0)):
            yield ticket(operation, line, dx, dy, length=3, origin=1, phase=phase, boxes=BOXES)


def source(pixel):
    return TRAY[PAGE.offset + pixel.row * PAGE.stride + pixel.column]


def rows():
    return [TRAY[PAGE.offset + row * PAGE.stride :][: PAGE.width] for row in range(PAGE.height)]


def file_of(maximum=4):
    return b"P5 7 5 %d\n" % maximum + b"".join(rows())


class Reasons(unittest.TestCase):
    def test_every_pixel_comes_out_as_its_reason_says(self):
        for order in tickets():
            output = bytearray(len(PIXELS))
            sotrugla.run(order, PAGE, TRAY, Spot(0, PAGE.width), output)
            for pixel, grey in zip(PIXELS, output):
                self.is_true(sotrugla.why(order, PAGE, TRAY, **pixel._asdict()), order, pixel, grey)

    def is_true(self, reason, order, pixel, grey):
        self.assertEqual((reason.pixel, reason.grey), (pixel, grey))
        if sotrugla.is_hidden(order, **pixel._asdict()):
            number = int(pixel.row > 1 or pixel.column > 2)
            self.assertEqual(reason, Reason(HIDDEN_BOX, pixel, 255, box=number, hidden=BOXES[number]))
            return
        two = order.operation in (OPEN, CLOSE)
        self.assertEqual((reason.kind, reason.phase), (TWO_PASSES if two else ONE_PASS, order.phase))
        self.assertEqual((reason.box, reason.hidden, reason.through is None), (None, None, not two))
        self.assertEqual(source(reason.from_), grey)
        for named in filter(None, (reason.through, reason.from_)):
            self.assertFalse(sotrugla.is_hidden(order, **named._asdict()))

    def test_files(self):
        for order in tickets():
            written = sotrugla.run_pgm(order, file_of()).file
            for pixel, grey in zip(PIXELS, written[-len(PIXELS) :]):
                reason = sotrugla.why_pgm(order.encode(), file_of(), **pixel._asdict())
                wanted = sotrugla.why(order, PAGE, TRAY, **pixel._asdict())
                self.assertEqual(reason, wanted._replace(grey=grey))

    def test_buffers_arrays_and_images(self):
        pages = [memoryview(b"".join(rows())).cast("B", [PAGE.height, PAGE.width])]
        if numpy:
            tray = numpy.frombuffer(TRAY, numpy.uint8)[PAGE.offset :].reshape(PAGE.height, PAGE.stride)
            pages += [tray[:, : PAGE.width], numpy.asfortranarray(tray[:, : PAGE.width])]
        if pillow:
            pages.append(pillow.frombytes("L", (PAGE.width, PAGE.height), pages[0].tobytes()))
        for order, page, pixel in itertools.product([*tickets()][::5], pages, PIXELS):
            wanted = sotrugla.why(order, PAGE, TRAY, **pixel._asdict())
            self.assertEqual(sotrugla.why_array(order, page, **pixel._asdict()), wanted)

    def test_hidden_pixels_change_nothing(self):
        for order, pixel in itertools.product([*tickets()][::4], PIXELS):
            other = bytearray(TRAY)
            for named in PIXELS:
                if sotrugla.is_hidden(order, **named._asdict()):
                    other[PAGE.offset + named.row * PAGE.stride + named.column] ^= 255
            wanted = sotrugla.why(order, PAGE, TRAY, **pixel._asdict())
            self.assertEqual(sotrugla.why(order, PAGE, other, **pixel._asdict()), wanted)

    def test_numbers_of_an_answer(self):
        order = ticket(ERODE).encode()
        numbers = [len(order), 4, 1, 0, 4, 0, 4]
        cases = [(2, (0, 0, 3, 0, 0, 2, 0, 3, 0)), (4, (19, 0, 0, 0, 0, 0, 0, 0, 0))]
        for column, wanted in cases:
            found = library.answer("sotrugla_why", order, *numbers, ROW, 4, 4, 20, column, 0)
            self.assertEqual(tuple(getattr(found, name) for name, _ in found._fields_), wanted)


class Sentences(unittest.TestCase):
    def said(self, order, column):
        return str(sotrugla.why(order, Page(0, 4, 1, 4), ROW, column=column, row=0))

    def test_each_kind(self):
        box = {"boxes": [(0, 0, 1, 1), (2, 0, 2, 1)]}
        cases = [
            (ticket(ERODE, origin=1), 2, "98 because column 1, row 0 is 98"),
            (ticket(ERODE, origin=1), 3, "98 because it is 98 itself"),
            (ticket(OPEN, origin=1), 2, "98 because column 1, row 0 is 98, by way of column 2, row 0"),
            (ticket(OPEN, origin=1), 3, "98 because it is 98 itself"),
            (ticket(OPEN), 3, "98 because it is 98 itself, by way of column 2, row 0"),
            (ticket(OPEN), 2, "98 because column 1, row 0 is 98"),
            (ticket(OPEN, **box), 3, "white because it is hidden by box 1: left 2, top 0, width 2, height 1"),
        ]
        for order, column, words in cases:
            self.assertEqual(self.said(order, column), f"column {column}, row 0 is {words}")

    def test_words_are_those_of_c_and_rust(self):
        """The pieces of a sentence, without what is put into them."""
        pieces = ("is white because it is hidden by box", " because ", "itself", ", by way of")
        for file in ("include/sotrugla.h", "host/src/reason.rs"):
            text = (ROOT / file).read_text()
            self.assertEqual([piece for piece in pieces if piece not in text], [], file)

    def test_copies(self):
        reason = sotrugla.why(ticket(OPEN), Page(0, 4, 1, 4), ROW, column=3, row=0)
        self.assertEqual(pickle.loads(pickle.dumps(reason)), reason)


class Refusals(unittest.TestCase):
    def refused(self, *arguments, call=sotrugla.why, column=7, row=0, **more):
        with self.assertRaises(Refused) as raised:
            call(*arguments, column=column, row=row, **more)
        return raised.exception.refusal, raised.exception.place

    def test_order(self):
        """Each job has one fault more than the one before it: the first in the order of refusals is told."""
        good, past = ticket(CLOSE, length=3), ticket(CLOSE, length=3, boxes=[BOXES[0], (6, 1, 2, 1)])
        needed, scratch = 4 * 9 + 7, sotrugla.scratch_needed(7, 5)
        narrow, short = PAGE._replace(stride=6), PAGE._replace(offset=6)
        job = {"spot": Spot(0, 9), "output_length": needed, "scratch_length": scratch}
        self.assertEqual(self.refused(good, PAGE, TRAY, **job), (19, 0))
        self.assertEqual(self.refused(past, PAGE, TRAY, **job), (14, 1))
        job["scratch_length"] -= 1
        self.assertEqual(self.refused(past, PAGE, TRAY, **job), (13, 0))
        job["output_length"] -= 1
        self.assertEqual(self.refused(past, PAGE, TRAY, **job), (12, 0))
        self.assertEqual(self.refused(past, short, TRAY, **job), (11, 0))
        self.assertEqual(self.refused(past, narrow, TRAY, **job), (10, 0))
        self.assertEqual(self.refused(b"", narrow, TRAY, **job), (1, 0))

    def test_off_the_page(self):
        for column, row in ((7, 0), (0, 5), (7, 5), ((1 << 64) - 1, 0), (0, (1 << 64) - 1)):
            self.assertEqual(self.refused(ticket(), PAGE, TRAY, column=column, row=row), (19, 0))
        with self.assertRaisesRegex(Refused, "^refused 19 at 0: the pixel is off the page$"):
            sotrugla.why(ticket(), PAGE, TRAY, column=7, row=0)
        page = memoryview(bytes(35)).cast("B", [5, 7])
        self.assertEqual(self.refused(ticket(), page, call=sotrugla.why_array), (19, 0))

    def test_files(self):
        past = ticket(boxes=[(3, 0, 1, 1)])
        cases = [
            (b"", b"P6", (1, 0)),
            (past, b"P6 3 1 9\n\1\2\3", (15, 1)),
            (past, b"P5 3 1 256\n", (16, 7)),
            (past, b"P5 3 1 9\n\1\2", (17, 11)),
            (past, b"P5 0 1 9\n", (10, 0)),
            (past, b"P5 3 1 9\n\1\2\3", (14, 0)),
            (ticket(), b"P5 3 1 9\n\1\2\3", (19, 0)),
        ]
        for order, file, wanted in cases:
            self.assertEqual(self.refused(order, file, call=sotrugla.why_pgm, column=3), wanted)

    def test_sentences_say_which(self):
        narrow, bad = PAGE._replace(stride=6), ticket(dx=2, dy=2)
        cases = [
            (sotrugla.why, (bad, PAGE, TRAY), {}, "common divisor above 1"),
            (sotrugla.why_pgm, (bad, b"P6"), {}, "common divisor above 1"),
            (sotrugla.why, (ticket(), narrow, TRAY), {}, "the source stride is not"),
            (sotrugla.why, (ticket(), PAGE, TRAY), {"spot": Spot(0, 6)}, "the output stride is not"),
            (sotrugla.why_pgm, (ticket(), b"P5 0 1 9\n"), {}, "a side of the file's page is not"),
        ]
        for call, arguments, more, words in cases:
            with self.assertRaisesRegex(Refused, words):
                call(*arguments, column=0, row=0, **more)

    def test_no_such_numbers(self):
        cases = [
            ({"column": -1}, OverflowError, "^column is -1, which has no place in 64 bits$"),
            ({"row": 1 << 64}, OverflowError, "^row is "),
            ({"column": 1.0}, TypeError, "^column is 1.0, not a whole number$"),
            ({"output_length": -1}, OverflowError, "^output_length is -1"),
            ({"spot": (0, 7)}, TypeError, re.escape("the page is a Page, and its place in the output a Spot")),
        ]
        for slip, kind, words in cases:
            with self.assertRaisesRegex(kind, words):
                sotrugla.why(ticket(), PAGE, TRAY, **{"column": 0, "row": 0, **slip})
        with self.assertRaisesRegex(TypeError, "^the page is a Page"):
            sotrugla.why(ticket(), (0, 7, 5, 7), TRAY, column=0, row=0)
