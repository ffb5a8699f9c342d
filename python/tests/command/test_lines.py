"""The lines that a picture draws, held to the library: a brute force over them filters as it does, and names what it
names."""

import itertools
import unittest

import sotrugla
from sotrugla import CLOSE, CONNECTED, DILATE, ERODE, OPEN, PERIODIC, Pixel, Ticket
from sotrugla.command.picture.lines import Sides, line, passes, step, window

from ..jobs import greys

SIDES = Sides(9, 7)
VECTORS = [(1, 0), (0, 1), (1, 1), (1, -1), (2, 1), (2, -1), (-1, 2), (5, 3), (5, -3), (-3, 5), (4, 1), (7, -2)]
BOXES = [(2, 1, 2, 3), (7, 0, 2, 2)]
# Few greys, so that several steps of a window have the result.
FILE = b"P5 9 7 6\n" + greys(*SIDES, 6)
PIXELS = [Pixel(column, row) for row in range(SIDES.height) for column in range(SIDES.width)]
HIDING = Ticket.erosion(along=(1, 0), length=1, hide=BOXES)
UNHIDDEN = {pixel for pixel in PIXELS if not sotrugla.is_hidden(HIDING, **pixel._asdict())}


def tickets():
    for operation, (dx, dy) in itertools.product((ERODE, DILATE, OPEN, CLOSE), VECTORS):
        for length, origin in ((2, 0), (3, 1), (20, 7)):
            yield Ticket(operation, PERIODIC, dx=dx, dy=dy, length=length, origin=origin, boxes=BOXES)
            for phase in range(max(abs(dx), abs(dy))):
                yield Ticket(
                    operation, CONNECTED, dx=dx, dy=dy, length=length, origin=origin, phase=phase, boxes=BOXES
                )


def unhidden(ticket, operation, pixel):
    """The window's steps that count."""
    return [at for at in window(ticket, operation, pixel, SIDES) if at in UNHIDDEN]


def passed(ticket, operation, page):
    """The greys of the unhidden pixels behind one pass, by the pixels."""
    extreme = min if operation == ERODE else max
    return {pixel: extreme(page[at] for at in unhidden(ticket, operation, pixel)) for pixel in page}


def stages(ticket):
    """The greys of the unhidden pixels before and behind each pass."""
    pages = [{at: grey for at, grey in zip(PIXELS, FILE[-len(PIXELS) :]) if at in UNHIDDEN}]
    for operation in passes(ticket.operation):
        pages.append(passed(ticket, operation, pages[-1]))
    return pages


class Lines(unittest.TestCase):
    def test_the_worked_steps(self):
        """Document 01's D for (5, 3) and (3, -2), and document 02's for (2, -1)."""
        for (dx, dy), rows in (((5, 3), [0, 1, 1, 2, 2, 3]), ((3, -2), [0, -1, -1, -2]), ((2, -1), [0, -1, -1, -2])):
            ticket = Ticket(ERODE, CONNECTED, dx=dx, dy=dy, length=3)
            self.assertEqual([step(ticket, Pixel(0, 0), count).row for count in range(len(rows))], rows)
            steep = Ticket(ERODE, CONNECTED, dx=dy, dy=dx, length=3)
            self.assertEqual([step(steep, Pixel(0, 0), count).column for count in range(len(rows))], rows)

    def test_each_pixel_is_on_one_line(self):
        for dx, dy in VECTORS:
            for kind, phase in ((PERIODIC, 0), *((CONNECTED, phase) for phase in range(max(abs(dx), abs(dy))))):
                ticket = Ticket(ERODE, kind, dx=dx, dy=dy, length=3, phase=phase)
                lines = {tuple(line(ticket, pixel, SIDES)) for pixel in PIXELS}
                self.assertEqual(sorted(pixel for one in lines for pixel in one), sorted(PIXELS))

    def test_filters_as_the_library_does(self):
        for ticket in tickets():
            finished = sotrugla.run_pgm(ticket, FILE).file[-len(PIXELS) :]
            last = stages(ticket)[-1]
            self.assertEqual(bytes(last.get(pixel, 6) for pixel in PIXELS), finished, ticket)

    def test_the_library_names_the_first_steps_of_these_windows(self):
        for ticket in [*tickets()][::4]:
            pages, done = stages(ticket), passes(ticket.operation)
            for pixel in pages[0]:
                reason = sotrugla.why_pgm(ticket, FILE, **pixel._asdict())
                taking = pixel
                if len(done) == 2:
                    taking = self.first(unhidden(ticket, done[1], pixel), pages[1], pages[2][pixel])
                    self.assertEqual(reason.through, taking)
                wanted = self.first(unhidden(ticket, done[0], taking), pages[0], pages[-1][pixel])
                self.assertEqual((reason.from_, reason.grey), (wanted, pages[-1][pixel]))

    def first(self, steps, page, grey):
        return next(at for at in steps if page[at] == grey)


if __name__ == "__main__":
    unittest.main()
