"""P5 files: what is written, each refusal of a file, and the exported functions themselves."""

import unittest

import sotrugla
from sotrugla import CLOSE, CONNECTED, OPEN, Page, Pgm, Refused, Spot, Ticket, library
from sotrugla.lending import lent_to_write

from .jobs import greys

SIDES = (13, 7)
ROW = b"P5\n3\n1\n9\n\x01\x02\x03"
UNCHANGED = Ticket(OPEN, CONNECTED, dx=1, dy=0, length=1)


def closing():
    return Ticket(CLOSE, CONNECTED, dx=3, dy=-1, length=4, origin=1)


def hiding():
    return closing().hide(left=5, top=2, width=4, height=3)


def file_of(width, height, maximum, pixels):
    """As the library writes it."""
    return b"P5\n%d\n%d\n%d\n" % (width, height, maximum) + pixels


def filtered(ticket, pixels, sides=SIDES):
    """The pixels and the work that a job on a tray gives."""
    width, height = sides
    page, output = Page(offset=0, width=width, height=height, stride=width), bytearray(len(pixels))
    work = sotrugla.run(ticket, page, pixels, Spot(offset=0, stride=width), output)
    return bytes(output), work


class Files(unittest.TestCase):
    def test_page_of_the_job_on_its_pixels(self):
        pixels = greys(*SIDES, 255)
        page, work = filtered(hiding(), pixels)
        self.assertEqual(
            sotrugla.run_pgm(hiding(), file_of(*SIDES, 255, pixels)), (file_of(*SIDES, 255, page), work)
        )

    def test_hidden_pixels_come_out_as_the_maximum(self):
        pixels = greys(*SIDES, 100)
        page, work = filtered(hiding(), pixels)
        self.assertEqual(page.count(255), 12)
        written = sotrugla.run_pgm(hiding().encode(), file_of(*SIDES, 100, pixels))
        self.assertEqual(written, (file_of(*SIDES, 100, page.replace(b"\xff", b"\x64")), work))

    def test_read_back(self):
        for width, height, maximum in ((1, 1, 1), (13, 7, 255), (8192, 1, 9), (1, 8192, 100)):
            file = file_of(width, height, maximum, greys(width, height, maximum))
            start = len(file) - width * height
            self.assertEqual(sotrugla.read_pgm(file), Pgm(width, height, maximum, start))
            self.assertEqual(sotrugla.run_pgm(UNCHANGED, file).file, file)

    def test_largest_page(self):
        file = file_of(8192, 8192, 255, bytes(8192 * 8192))
        self.assertEqual(sotrugla.run_pgm(UNCHANGED, file).file, file)

    def test_comments_and_a_second_image(self):
        odd = b"P5#\n#x\r 0#y\n3\t1\x0b\x0c9#z\r\n\x01\x02\x03"
        for file in (ROW, odd, ROW.replace(b"\n", b"\r") + b"P5 not an image"):
            self.assertEqual(sotrugla.run_pgm(UNCHANGED, file).file, ROW)

    def test_part_of_a_buffer(self):
        file = memoryview(bytearray(b"P" + ROW))[1:]
        written = sotrugla.run_pgm(UNCHANGED, file).file
        self.assertEqual((type(written), written), (bytes, ROW))


class Refusals(unittest.TestCase):
    def refused(self, ticket, file):
        with self.assertRaises(Refused) as raised:
            sotrugla.run_pgm(ticket, file)
        return raised.exception.refusal, raised.exception.place

    def test_files(self):
        cases = [
            (b"", (15, 0)),
            (b"P6 3 1 9\n\x01\x02\x03", (15, 1)),
            (b"P5#x\n3 1 9\n\x01\x02\x03", (15, 5)),
            (b"P5 3 1 9#cut", (15, 12)),
            (b"P5 3 1 00\n\0\0\0", (15, 7)),
            (b"P5 3 1 256x", (15, 10)),
            (b"P5 3 1 256\n", (16, 7)),
            (b"P5 3 1 9\n\x01\x0a\x0b", (17, 10)),
            (b"P5 3 1 9\n\x01\x02", (17, 11)),
            (b"P5 3 1" + b"0" * 30 + b" 9\n\x01\x02\x03", (17, 42)),
            (b"P5 0 1 9\n", (10, 0)),
            (file_of(8193, 1, 9, bytes(8193)), (10, 0)),
        ]
        for file, wanted in cases:
            self.assertEqual(self.refused(closing(), file), wanted, file)
            with self.assertRaises(Refused) as raised:
                sotrugla.read_pgm(file)
            self.assertEqual((raised.exception.refusal, raised.exception.place), wanted, file)

    def test_cut_at_every_byte(self):
        for length in range(len(ROW)):
            wanted = (15 if length < ROW.index(b"\x01") else 17, length)
            self.assertEqual(self.refused(UNCHANGED, ROW[:length]), wanted)

    def test_order(self):
        good = file_of(*SIDES, 9, greys(*SIDES, 9))
        past = hiding().hide(left=12, top=2, width=2, height=1)
        self.assertEqual(self.refused(b"", b"P5"), (1, 0))
        self.assertEqual(self.refused(b"", good), (1, 0))
        self.assertEqual(self.refused(past, b"P5"), (15, 2))
        self.assertEqual(self.refused(past, good), (14, 1))

    def test_a_hidden_pixel_above_the_maximum(self):
        file = file_of(*SIDES, 9, bytes(2 * 13 + 5) + b"\x0a" + bytes(4 * 13 + 7))
        self.assertTrue(sotrugla.is_hidden(hiding(), column=5, row=2))
        self.assertEqual(self.refused(hiding(), file), (17, 10 + 2 * 13 + 5))


class Buffers(unittest.TestCase):
    """The exported functions themselves: what they answer, and what is left in output and scratch."""

    def run_on(self, output_length, scratch_length):
        ticket, output, scratch = UNCHANGED.encode(), bytearray([7] * output_length), bytearray([8] * scratch_length)
        with lent_to_write(output, "the output") as out, lent_to_write(scratch, "the scratch") as kept:
            answer = library.answer("sotrugla_run_pgm", ticket, len(ticket), ROW, len(ROW), *out, *kept)
        return (answer.refusal, answer.place, answer.work, answer.length), bytes(output), bytes(scratch)

    def test_numbers_of_a_reading(self):
        cases = [(ROW, (0, 0, 3, 1, 9, 9)), (b"P5 3 1 256 ", (16, 7, 0, 0, 0, 0)), (b"P5 0 7 9 ", (10, 0, 0, 0, 0, 0))]
        for file, wanted in cases:
            shown = library.answer("sotrugla_read_pgm", file, len(file))
            self.assertEqual(tuple(getattr(shown, name) for name, _ in shown._fields_), wanted)

    def test_short_ones(self):
        for lengths, refusal in (((11, 15), 12), ((0, 0), 12), ((12, 14), 13), ((12, 0), 13)):
            untouched = bytes([7] * lengths[0]), bytes([8] * lengths[1])
            self.assertEqual(self.run_on(*lengths), ((refusal, 0, 0, 0), *untouched))

    def test_longer_ones(self):
        _, work = filtered(UNCHANGED, ROW[9:], (3, 1))
        wanted = (0, 0, work, len(ROW)), ROW + b"\7\7", bytes(15) + b"\x08"
        self.assertEqual(self.run_on(14, 16), wanted)
