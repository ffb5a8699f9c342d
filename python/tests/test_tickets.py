"""Tickets: built, encoded, read back, and asked what they hide."""

import ctypes
import inspect
import unittest

import sotrugla
from sotrugla import CLOSE, CONNECTED, DILATE, ERODE, OPEN, PERIODIC, HiddenBox, Page, Refused, Spot, Ticket
from sotrugla import library

from .jobs import installed, ticket

numpy = installed("numpy")
BUILDERS = {
    ERODE: Ticket.erosion,
    DILATE: Ticket.dilation,
    OPEN: Ticket.opening,
    CLOSE: Ticket.closing,
}


class Building(unittest.TestCase):
    def test_values_by_name(self):
        values = inspect.signature(Ticket).parameters.values()
        first = [value.name for value in values if value.kind == value.POSITIONAL_OR_KEYWORD]
        named = {value.name: value.default for value in values if value.kind == value.KEYWORD_ONLY}
        due = dict.fromkeys(["dx", "dy", "length"], inspect.Parameter.empty)
        self.assertEqual((first, named), (["operation", "line"], {**due, "origin": 0, "phase": 0, "boxes": ()}))

    def test_shown(self):
        shown = "Ticket(operation=3, line=1, dx=1, dy=0, length=2, origin=0, phase=0, boxes=[])"
        self.assertEqual(repr(ticket()), shown)
        self.assertNotEqual(ticket(), ticket(origin=1))

    def test_boxes_are_its_own(self):
        boxes = [(1, 2, 3, 4)]
        first, second = ticket(boxes=boxes), ticket(boxes=boxes)
        first.hide(left=0, top=0, width=1, height=1)
        self.assertEqual((len(first.boxes), second.boxes, len(boxes)), (2, [HiddenBox(1, 2, 3, 4)], 1))

    def test_of_each_operation(self):
        for operation, built in BUILDERS.items():
            self.assertEqual(built(along=(5, 3), length=51), ticket(operation, CONNECTED, 5, 3, 51, origin=25))
            more = {"origin": 0, "periodic": True, "phase": 2, "hide": [(1, 2, 3, 4), HiddenBox(5, 6, 7, 8)]}
            wanted = ticket(operation, PERIODIC, -1, 2, 9, phase=2, boxes=[(1, 2, 3, 4), (5, 6, 7, 8)])
            self.assertEqual(built(along=(-1, 2), length=9, **more), wanted)

    def test_middle(self):
        middles = [Ticket.opening(along=(1, 0), length=length).origin for length in (1, 2, 3, 4, 5, 8192)]
        self.assertEqual(middles, [0, 1, 1, 2, 2, 4096])

    def test_slips(self):
        cases = [
            ({"along": (1, 2, 3)}, TypeError, r"^along is \(1, 2, 3\), not a vector \(dx, dy\)$"),
            ({"along": 5}, TypeError, r"^along is 5, not a vector \(dx, dy\)$"),
            ({"origin": "center"}, ValueError, "^origin is 'center', neither a step of the segment nor 'centre'$"),
            ({"hide": [(1, 2, 3)]}, TypeError, r"^box 0 is \(1, 2, 3\), not \(left, top, width, height\)$"),
            ({"hide": (1, 2, 3, 4)}, TypeError, r"^box 0 is 1, not \(left, top, width, height\)$"),
            ({"length": 5.0}, TypeError, "^length is 5.0, not a whole number$"),
        ]
        for slip, error, sentence in cases:
            with self.assertRaisesRegex(error, sentence):
                Ticket.closing(**{"along": (1, 0), "length": 5, **slip})


class Encoding(unittest.TestCase):
    def test_read_back(self):
        full = ticket()
        for k in range(64):
            full.hide(left=k, top=1, width=2, height=65535)
        steep = ticket(DILATE, dx=-2, dy=5, length=1, phase=4)
        for built in (full, steep, ticket(CLOSE, PERIODIC, dx=255, dy=-255, length=8192, origin=8191)):
            self.assertEqual(sotrugla.read_ticket(built.encode()), built)

    @unittest.skipUnless(numpy, "numpy is not installed")
    def test_numbers_of_numpy(self):
        built = Ticket.opening(along=numpy.array([5, -3]), length=numpy.uint8(200), hide=numpy.array([[1, 2, 3, 4]]))
        wanted = ticket(OPEN, CONNECTED, 5, -3, 200, origin=100, boxes=[(1, 2, 3, 4)])
        self.assertEqual(built.encode(), wanted.encode())

    def test_values_that_have_no_place(self):
        cases = [
            (ticket(length=70000), OverflowError, "^length is 70000, which has no place in 16 bits$"),
            (ticket(length=-1), OverflowError, "^length is -1, which has no place in 16 bits$"),
            (ticket(operation=256), OverflowError, "^operation is 256, which has no place in 8 bits$"),
            (ticket(dy=32768), OverflowError, "^dy is 32768, which has no place in 16 bits with a sign$"),
            (ticket(dx=2.5), TypeError, "^dx is 2.5, not a whole number$"),
            (ticket(origin=None), TypeError, "^origin is None, not a whole number$"),
            (ticket(boxes=[(0, 0, 1, 1), (0, 65536, 1, 1)]), OverflowError, "^top of box 1 is 65536, which has no"),
        ]
        for built, error, sentence in cases:
            with self.assertRaisesRegex(error, sentence):
                built.encode()

    def test_box_of_three_numbers(self):
        built = ticket()
        built.boxes.append((1, 2, 3))
        with self.assertRaisesRegex(TypeError, r"^box 0 is \(1, 2, 3\), not \(left, top, width, height\)$"):
            built.encode()


class Reading(unittest.TestCase):
    def test_refused(self):
        with self.assertRaises(Refused) as raised:
            sotrugla.read_ticket(ticket(dx=0, dy=0).encode())
        self.assertEqual((raised.exception.refusal, raised.exception.place), (6, 8))

    def test_numbers_past_the_ticket(self):
        """The exported function itself, on buffers one short, just long enough and longer."""
        encoded = ticket().encode()
        for length, outcome in ((263, (100, 264, 0)), (264, (0, 0, 0)), (266, (0, 0, 0))):
            numbers = (ctypes.c_int64 * length)(*[7] * length)
            found = library.answer("sotrugla_read_ticket", encoded, len(encoded), numbers, length)
            self.assertEqual((found.refusal, found.place, found.work), outcome)
            shown = [7] * 264 if found.refusal else [3, 1, 1, 0, 2, 0, 0, 0] + [0] * 256
            self.assertEqual(list(numbers), (shown + [7] * 2)[:length])


class Hiding(unittest.TestCase):
    def test_white_on_a_finished_page(self):
        """A finished page is white where its ticket hides, and nowhere else on a grey page."""
        page = Page(offset=0, width=7, height=5, stride=7)
        job = ticket().hide(left=2, top=1, width=3, height=1).hide(left=6, top=0, width=1, height=5)
        output = bytearray(35)
        sotrugla.run(job, page, bytes([9] * 35), Spot(offset=0, stride=7), output)
        for at, pixel in enumerate(output):
            self.assertEqual(sotrugla.is_hidden(job, column=at % 7, row=at // 7), pixel == 255)

    def test_off_every_page(self):
        """Boxes are not held to a page; a refused ticket has none."""
        job = ticket().hide(left=65535, top=0, width=65535, height=1).hide(left=3, top=3, width=0, height=9)
        for column, hidden in ((65534, False), (65535, True), (131069, True), (131070, False), (2**64 - 1, False)):
            self.assertEqual(sotrugla.is_hidden(job.encode(), column=column, row=0), hidden)
        self.assertFalse(sotrugla.is_hidden(job, column=3, row=3))
        self.assertFalse(sotrugla.is_hidden(job.encode() + b"\7", column=65535, row=0))
        with self.assertRaisesRegex(OverflowError, "^column is -1, which has no place in 64 bits$"):
            sotrugla.is_hidden(job, column=-1, row=0)
