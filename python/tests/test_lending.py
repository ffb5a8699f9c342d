"""Buffers lent to a call: the kinds that are bytes, the kinds that are not, and that they stay where they are."""

import array
import ctypes
import mmap
import unittest

import sotrugla
from sotrugla.lending import lent

from .jobs import ALONE, ROW, SPOT, installed, ticket

numpy = installed("numpy")
FILE = b"P5\n3\n1\n9\n\x09\x01\x05"


def mapped(content):
    """An anonymous mmap. Its length is that of the content."""
    room = mmap.mmap(-1, len(content))
    room[:] = content
    return room


def kinds(content):
    """The content in every kind of writable tray that the standard library has."""
    flat = memoryview(bytearray(content))
    return {
        "bytearray": bytearray(content),
        "memoryview": flat,
        "memoryview of two dimensions": flat.cast("B", [1, len(content)]),
        "memoryview of characters": flat.cast("c"),
        "mmap": mapped(content),
        "array": array.array("B", content),
        "c_ubyte": (ctypes.c_ubyte * len(content))(*content),
        "c_char": (ctypes.c_char * len(content))(*content),
        "c_ubyte of two dimensions": (ctypes.c_ubyte * len(content) * 1)((*content,)),
    }


def arrays(content):
    """The same of numpy's."""
    flat = numpy.frombuffer(bytearray(content), numpy.uint8)
    return {"one dimension": flat, "two dimensions": flat.reshape(1, -1), "a part": numpy.pad(flat, 1)[1:-1]}


def not_bytes():
    """Buffers as long as the row, each with the sentence that refuses it."""
    flat = memoryview(bytes(3))
    return [
        (flat.cast("b"), "is a buffer of format 'b', not of bytes (uint8)"),
        (flat.cast("?"), "is a buffer of format '?', not of bytes (uint8)"),
        (array.array("b", bytes(3)), "is a buffer of format 'b', not of bytes (uint8)"),
        (array.array("I", [1, 2, 3]), "is a buffer of format 'I', not of bytes (uint8)"),
        ((ctypes.c_byte * 3)(), "is a buffer of format '<b', not of bytes (uint8)"),
        (flat.cast("B", [1, 1, 3]), "has 3 dimensions, not 1 or 2"),
        (ctypes.c_ubyte(), "has 0 dimensions, not 1 or 2"),
        ("P5", "is of type str, not a buffer of bytes"),
        ([9, 1, 5], "is of type list, not a buffer of bytes"),
        (None, "is of type NoneType, not a buffer of bytes"),
    ]


class Kinds(unittest.TestCase):
    def run_in(self, makes):
        """Each kind as the ticket, the source, the output, the scratch and a file."""
        sources, outputs, scratches = makes(ROW), makes(bytes(3)), makes(bytes(15))
        tickets, files, listed = makes(ticket().encode()), makes(FILE), makes(bytes(3))
        for kind, source in sources.items():
            sotrugla.run(tickets[kind], ALONE, source, SPOT, outputs[kind], scratches[kind])
            self.assertEqual(memoryview(outputs[kind]).tobytes(), bytes([1, 1, 5]), kind)
            sotrugla.run_tray([sotrugla.TrayJob(tickets[kind], ALONE, SPOT)], source, listed[kind], scratches[kind])
            self.assertEqual(memoryview(listed[kind]).tobytes(), bytes([1, 1, 5]), kind)
            self.assertEqual(sotrugla.run_pgm(tickets[kind], files[kind]).file, FILE[:9] + bytes([1, 1, 5]), kind)
            self.assertEqual(sotrugla.read_pgm(files[kind]).start, 9, kind)
            self.assertEqual(sotrugla.read_ticket(tickets[kind]), ticket(), kind)

    def test_of_the_standard_library(self):
        self.run_in(kinds)

    @unittest.skipUnless(numpy, "numpy is not installed")
    def test_of_numpy(self):
        self.run_in(arrays)

    def test_not_bytes(self):
        for buffer, words in not_bytes():
            self.is_refused(buffer, words)

    @unittest.skipUnless(numpy, "numpy is not installed")
    def test_not_bytes_of_numpy(self):
        for kind, shown in (("int8", "b"), ("bool", "?"), ("uint16", "H"), ("float64", "d")):
            self.is_refused(numpy.zeros(3, kind), f"is a buffer of format '{shown}', not of bytes (uint8)")
        self.is_refused(numpy.zeros((1, 3, 1), "uint8"), "has 3 dimensions, not 1 or 2")

    def is_refused(self, buffer, words):
        calls = {
            "the ticket": lambda: sotrugla.read_ticket(buffer),
            "the file": lambda: sotrugla.read_pgm(buffer),
            "the source": lambda: sotrugla.run(ticket(), ALONE, buffer, SPOT, bytearray(3)),
            "the output": lambda: sotrugla.run(ticket(), ALONE, ROW, SPOT, buffer),
        }
        for name, call in calls.items():
            with self.assertRaises(TypeError) as raised:
                call()
            self.assertEqual(str(raised.exception), f"{name} {words}")
        with self.assertRaises(TypeError):
            sotrugla.run_pgm(ticket(), buffer)

    def test_not_in_one_piece(self):
        with self.assertRaisesRegex(BufferError, "^the source is not in one piece: its bytes must follow each other$"):
            sotrugla.run(ticket(), ALONE, memoryview(bytes(6))[::2], SPOT, bytearray(3))

    def test_output_that_cannot_be_written(self):
        with self.assertRaisesRegex(BufferError, "^the output cannot be written$"):
            sotrugla.run(ticket(), ALONE, ROW, SPOT, bytes(3))
        with self.assertRaisesRegex(BufferError, "^the scratch cannot be written$"):
            sotrugla.run(ticket(), ALONE, ROW, SPOT, bytearray(3), memoryview(bytearray(15)).toreadonly())


class Lending(unittest.TestCase):
    def test_not_moved_and_given_back(self):
        tray = bytearray(ROW)
        with lent(tray, "the tray") as found:
            self.assertEqual((found.first(2), found.first(9)), (ROW[:2], ROW))
            with self.assertRaises(BufferError):
                tray.append(1)
        tray.append(1)

    def test_given_back_after_a_refusal(self):
        source, output = bytearray(ROW), bytearray(2)
        with self.assertRaises(sotrugla.Refused):
            sotrugla.run(ticket(), ALONE, source, SPOT, output)
        source.append(1)
        output.append(1)
