"""Jobs on trays: worked cases, a tray of real size, each refusal, and what is refused before the library is called."""

import unittest

import sotrugla
from sotrugla import CLOSE, DILATE, ERODE, OPEN, PERIODIC, Page, Refused, Spot

from .jobs import ALONE, ROW, SPOT, installed, ticket

numpy = installed("numpy")


class Jobs(unittest.TestCase):
    def test_worked_cases(self):
        cases = [
            (ticket(ERODE), 3, [1, 1, 5]),
            (ticket(DILATE), 3, [9, 9, 5]),
            (ticket(OPEN), 6, [1, 1, 5]),
            (ticket(CLOSE), 6, [9, 5, 5]),
            (ticket(OPEN, origin=1), 6, [9, 1, 1]),
            (ticket(ERODE, length=8192), 4, [1, 1, 5]),
            (ticket(OPEN, length=3).hide(left=1, top=0, width=1, height=1), None, [5, 255, 5]),
        ]
        for job, work, pixels in cases:
            output = bytearray(3)
            answer = sotrugla.run(job, ALONE, ROW, SPOT, output)
            self.assertEqual(list(output), pixels)
            if work is not None:
                self.assertEqual(answer, work)

    def test_falling_periodic_line(self):
        page = Page(offset=0, width=3, height=3, stride=3)
        output = bytearray(9)
        job = ticket(ERODE, PERIODIC, dx=1, dy=-1, length=2)
        sotrugla.run(job, page, bytes(range(1, 10)), SPOT, output)
        self.assertEqual(list(output), [1, 2, 3, 2, 3, 6, 5, 6, 9])

    def test_nothing_else_is_written(self):
        page = Page(offset=2, width=3, height=1, stride=5)
        output, scratch = bytearray([7] * 9), bytearray([8] * 20)
        source = bytes([200, 200, 9, 1, 5, 200])
        sotrugla.run(ticket(), page, source, Spot(offset=4, stride=3), output, scratch)
        self.assertEqual(list(output), [7, 7, 7, 7, 1, 1, 5, 7, 7])
        self.assertEqual(list(scratch), [0] * 15 + [8] * 5)

    def test_tray_of_real_size(self):
        page = Page(offset=5000, width=2480, height=3508, stride=4096)
        tray = bytearray(page.offset + page.height * page.stride)
        line = bytes(251 * column % 256 for column in range(page.width))
        for row in range(page.height):
            at = page.offset + row * page.stride
            tray[at : at + page.width] = line
        output = bytearray(page.width * page.height)
        sotrugla.run(ticket(ERODE, length=9, origin=4), page, tray, Spot(offset=0, stride=page.width), output)
        eroded = bytes(min(line[max(c - 4, 0) : c + 5]) for c in range(page.width))
        self.assertEqual(output, eroded * page.height)

    def test_scratch_needed(self):
        self.assertEqual(sotrugla.scratch_needed(16, 5), 2 * 16 * 5 + 3 * 16)
        for sides in ((0, 1), (1, 0), (8193, 1), (1, 8193)):
            self.assertEqual(sotrugla.scratch_needed(*sides), 0)


class Refusals(unittest.TestCase):
    def refused(self, job, page=ALONE, spot=SPOT, lengths=(3, 3, 15)):
        output, scratch = bytearray([7] * lengths[1]), bytearray([8] * lengths[2])
        with self.assertRaises(Refused) as raised:
            sotrugla.run(job, page, memoryview(ROW)[: lengths[0]], spot, output, scratch)
        self.assertEqual(output, bytearray([7] * lengths[1]))
        self.assertEqual(scratch, bytearray([8] * lengths[2]))
        return raised.exception.refusal, raised.exception.place

    def changed(self, at, byte):
        encoded = bytearray(ticket().encode())
        encoded[at] = byte
        return encoded

    def test_tickets(self):
        many = ticket()
        for _ in range(65):
            many.hide(left=0, top=0, width=1, height=1)
        self.assertEqual(self.refused(b""), (1, 0))
        self.assertEqual(self.refused(self.changed(4, 9)), (2, 4))
        self.assertEqual(self.refused(self.changed(6, 2)), (3, 4))
        self.assertEqual(self.refused(ticket(operation=5)), (4, 0))
        self.assertEqual(self.refused(many), (5, 30 + 64 * 11))
        self.assertEqual(self.refused(ticket(dx=2, dy=2)), (6, 8))
        self.assertEqual(self.refused(ticket(length=8193)), (7, 15))
        self.assertEqual(self.refused(ticket(origin=2)), (8, 20))
        self.assertEqual(self.refused(ticket(phase=1)), (9, 25))

    def test_pages(self):
        past = ticket().hide(left=0, top=0, width=3, height=1).hide(left=65535, top=0, width=2, height=1)
        self.assertEqual(self.refused(ticket(), ALONE._replace(stride=2)), (10, 0))
        self.assertEqual(self.refused(ticket(), ALONE._replace(offset=2**64 - 1)), (11, 0))
        self.assertEqual(self.refused(ticket(), lengths=(3, 2, 15)), (12, 0))
        self.assertEqual(self.refused(ticket(), lengths=(3, 3, 14)), (13, 0))
        self.assertEqual(self.refused(past), (14, 1))

    def test_empty_buffers(self):
        self.assertEqual(self.refused(ticket(), lengths=(0, 0, 0)), (11, 0))


class Slips(unittest.TestCase):
    """What the library cannot see, and the package does."""

    def test_buffers_that_overlap(self):
        tray = memoryview(bytearray(40))
        for source, output, scratch in [(0, 2, 20), (0, 20, 2), (0, 22, 20)]:
            parts = tray[source : source + 3], SPOT, tray[output : output + 3], tray[scratch : scratch + 15]
            with self.assertRaisesRegex(ValueError, "overlaps"):
                sotrugla.run(ticket(), ALONE, *parts)
        sotrugla.run(ticket(), ALONE, tray[0:3], SPOT, tray[3:6], tray[6:21])

    def test_a_ticket_that_is_written(self):
        encoded = bytearray(ticket().encode())
        with self.assertRaisesRegex(ValueError, "overlaps"):
            sotrugla.run(encoded, ALONE, ROW, SPOT, bytearray(3), encoded)

    def test_numbers_that_have_no_place(self):
        cases = [
            (ALONE._replace(offset=2**64), SPOT, OverflowError, f"^the page's offset is {2**64}, which has no place"),
            (ALONE._replace(width=-1), SPOT, OverflowError, "^the page's width is -1, which has no place in 64 bits$"),
            (ALONE._replace(height=1.0), SPOT, TypeError, "^the page's height is 1.0, not a whole number$"),
            (ALONE, SPOT._replace(stride="3"), TypeError, "^the spot's stride is '3', not a whole number$"),
        ]
        for page, spot, error, sentence in cases:
            with self.assertRaisesRegex(error, sentence):
                sotrugla.run(ticket(), page, ROW, spot, bytearray(3))
        with self.assertRaisesRegex(OverflowError, "^height is -1, "):
            sotrugla.scratch_needed(1, -1)

    @unittest.skipUnless(numpy, "numpy is not installed")
    def test_numbers_of_numpy(self):
        output, three = bytearray(4), numpy.uint16(3)
        page = Page(offset=numpy.uint8(0), width=three, height=numpy.int64(1), stride=three)
        sotrugla.run(ticket(), page, ROW, Spot(offset=numpy.int8(1), stride=three), output)
        self.assertEqual(list(output), [0, 1, 1, 5])
        self.assertEqual(sotrugla.scratch_needed(three, three), 27)

    def test_page_and_spot_exchanged(self):
        with self.assertRaisesRegex(TypeError, "^the page is a Page, and its place in the output a Spot$"):
            sotrugla.run(ticket(), SPOT, ROW, ALONE, bytearray(3))
