"""Refusals: their sentences, which say what was wrong, and that they survive copying and pickling."""

import concurrent.futures
import copy
import pickle
import re
import unittest

import sotrugla
from sotrugla import CONNECTED, PERIODIC, Refused, refusals

from .jobs import ALONE, ROOT, ROW, SPOT, ticket

FILE_10 = b"P5 0 1 9\n"


def refused(call, *arguments):
    """What was raised."""
    try:
        call(*arguments)
    except Refused as found:
        return found
    raise AssertionError(f"{call.__name__} refused nothing")


class Sentences(unittest.TestCase):
    def test_with_place(self):
        cases = [
            (7, 15, "the segment length is 0 or above 8192 (the field at byte 15 of the ticket)"),
            (13, 0, "the scratch is too short"),
            (14, 3, "a hidden box has a zero side or passes the page's edge (box 3, counted from 0)"),
            (16, 7, "the file's maximum is above 255 (byte 7 of the file, counted from 0, or its end)"),
            (18, 0, "the list has more than 256 jobs"),
            (100, 264, "the buffer of numbers is too short (it needs 264 numbers)"),
        ]
        for refusal, place, words in cases:
            self.assertEqual(str(Refused(refusal, place)), f"refused {refusal} at {place}: {words}")
        self.assertEqual(str(Refused(13, 0, "it is small")), "refused 13 at 0: it is small")

    def test_vectors(self):
        nowhere, beyond, leaning, divisible = refusals.VECTOR_SENTENCES
        cases = [
            ((0, 0), nowhere),
            ((256, 0), beyond),
            ((-300, 0), beyond),
            ((0, -256), beyond),
            ((32767, -32768), beyond),
            ((-1, 0), leaning),
            ((1, -2), leaning),
            ((-1, 1), leaning),
            ((-255, -255), leaning),
            ((2, 2), divisible),
            ((255, -5), divisible),
            ((-2, 4), divisible),
            ((0, 2), divisible),
        ]
        for (dx, dy), sentence in cases:
            for line in (CONNECTED, PERIODIC) if sentence != divisible else (CONNECTED,):
                self.vector_is_refused(ticket(line=line, dx=dx, dy=dy), sentence)

    def vector_is_refused(self, job, sentence):
        """In the same words by every call that reads the ticket."""
        calls = [
            refused(sotrugla.read_ticket, job.encode()),
            refused(sotrugla.run_pgm, job, FILE_10),
            refused(sotrugla.run, job, ALONE, ROW, SPOT, bytearray(3)),
            refused(sotrugla.run, bytearray(job.encode()), ALONE, ROW, SPOT, bytearray(3)),
        ]
        for found in calls:
            self.assertEqual(str(found), f"refused 6 at 8: {sentence} (the field at byte 8 of the ticket)")

    def test_placements(self):
        width, height, source, output = refusals.PLACEMENT_SENTENCES
        cases = [
            ({"width": 0, "height": 0, "stride": 16385}, 16385, width),
            ({"width": 8193, "stride": 8193}, 8193, width),
            ({"height": 0, "stride": 2}, 3, height),
            ({"height": 8193}, 3, height),
            ({"stride": 2}, 2, source),
            ({"stride": 16385}, 3, source),
            ({}, 2, output),
            ({}, 16385, output),
        ]
        for changes, stride, sentence in cases:
            page, spot = ALONE._replace(**changes), SPOT._replace(stride=stride)
            found = refused(sotrugla.run, ticket(), page, ROW, spot, bytearray(3))
            self.assertEqual(str(found), f"refused 10 at 0: {sentence}")

    def test_files(self):
        for found in (refused(sotrugla.read_pgm, FILE_10), refused(sotrugla.run_pgm, ticket(), FILE_10)):
            self.assertEqual(str(found), "refused 10 at 0: a side of the file's page is not 1 to 8192")

    def test_sentences_are_those_of_c_and_rust(self):
        which = [*refusals.VECTOR_SENTENCES, *refusals.PLACEMENT_SENTENCES, refusals.FILE_SENTENCE]
        for file in ("include/sotrugla.h", "host/src/refusal.rs"):
            # A long literal is continued on the next line: in C by another one, in Rust behind a backslash.
            text = re.sub(r'"\s*\n\s*"|\\\n\s*', "", (ROOT / file).read_text())
            found = [text.find(f'"{sentence}"') for sentence in sotrugla.SENTENCES.values()]
            self.assertNotIn(-1, found, file)
            self.assertEqual(found, sorted(found), file)
            self.assertEqual([sentence for sentence in which if f'"{sentence}"' not in text], [], file)


class Copies(unittest.TestCase):
    """A refusal of which the sentence says more than its number."""

    def setUp(self):
        self.refused = refused(sotrugla.run_pgm, ticket(dx=0), b"")

    def is_same(self, other):
        for name in ("refusal", "place", "sentence"):
            self.assertEqual(getattr(other, name), getattr(self.refused, name))
        self.assertEqual((type(other), str(other)), (Refused, str(self.refused)))
        self.assertIn(refusals.VECTOR_SENTENCES[0], str(other))

    def test_copied(self):
        self.is_same(copy.copy(self.refused))
        self.is_same(copy.deepcopy(self.refused))

    def test_pickled(self):
        for protocol in range(pickle.HIGHEST_PROTOCOL + 1):
            self.is_same(pickle.loads(pickle.dumps(self.refused, protocol)))

    def test_raised_in_another_process(self):
        with concurrent.futures.ProcessPoolExecutor(1) as pool:
            self.is_same(pool.submit(sotrugla.run_pgm, ticket(dx=0), b"").exception(timeout=60))
