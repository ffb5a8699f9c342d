"""Lists of jobs: held to single calls on random small lists, refused lists, and what is refused before the library is
called."""

import random
import unittest

import sotrugla
from sotrugla import CLOSE, ERODE, PERIODIC, Page, Refused, Result, Spot, TrayJob, run_tray

from .jobs import ALONE, ROW, SPOT, ticket

# Tickets for small pages. Some are refused: for a cut, a vector, a length, a box past the edge.
TICKETS = [
    ticket(),
    ticket(CLOSE, dx=2, dy=-1, length=3, origin=1),
    ticket(ERODE, PERIODIC, dx=0, dy=1).hide(left=0, top=0, width=1, height=1).encode(),
    ticket().hide(left=2, top=0, width=9, height=1),
    ticket(dx=2, dy=2),
    ticket(dx=0).encode(),
    ticket(length=0),
    memoryview(ticket().encode())[:20],
    b"",
]
LONG = 60


def any_job(numbers):
    """A job on a small page, which mostly fits, over places that other jobs write, too."""
    width, height = numbers.randrange(5), numbers.randrange(4)
    stride = width + numbers.randrange(-1, 3) if width else 0
    page = Page(offset=numbers.randrange(50), width=width, height=height, stride=stride)
    spot = Spot(offset=numbers.randrange(50), stride=max(0, width + numbers.randrange(-1, 3)))
    return TrayJob(numbers.choice(TICKETS), page, spot)


def single(jobs, source, output, scratch):
    """What single calls in list order answer."""
    for job in jobs:
        try:
            yield sotrugla.run(job.ticket, job.page, source, job.spot, output, scratch), None
        except Refused as refused:
            yield 0, str(refused)


def told(results):
    return [(result.work, result.refused and str(result.refused)) for result in results]


class Lists(unittest.TestCase):
    def test_as_single_calls_in_list_order(self):
        numbers, refusals, finished = random.Random(3), set(), 0
        for length in [*range(40), 255, 256]:
            jobs, source = [any_job(numbers) for _ in range(length)], numbers.randbytes(LONG)
            listed, alone = [[bytearray([7] * LONG), bytearray([8] * 30)] for _ in range(2)]
            results = run_tray(jobs, source, *listed)
            self.assertEqual(told(results), [*single(jobs, source, *alone)])
            self.assertEqual(listed, alone)
            refusals |= {result.refused.refusal for result in results if result.refused}
            finished += sum(result.refused is None for result in results)
        self.assertEqual(refusals, {1, 6, 7, 10, 11, 12, 13, 14})
        self.assertGreater(finished, 100)

    def test_a_refused_job_between(self):
        jobs = [
            TrayJob(ticket(), ALONE, Spot(offset=1, stride=3)),
            TrayJob(ticket(dx=0), ALONE, Spot(offset=4, stride=3)),
            TrayJob(ticket(origin=1), ALONE, Spot(offset=7, stride=3)),
        ]
        output = bytearray([77] * 11)
        first, between, last = run_tray(jobs, ROW, output)
        self.assertEqual((first, last), (Result(6, None), Result(6, None)))
        self.assertEqual((between.work, type(between.refused)), (0, Refused))
        sentence = "the vector is 0, 0 and has no direction (the field at byte 8 of the ticket)"
        self.assertEqual(str(between.refused), f"refused 6 at 8: {sentence}")
        self.assertEqual(list(output), [77, 1, 1, 5, 77, 77, 77, 9, 1, 1, 77])

    def test_later_bytes_stand(self):
        jobs = [TrayJob(ticket(ERODE, length=1), ALONE, Spot(offset=at, stride=3)) for at in (0, 2, 1)]
        for order, wanted in (((0, 1), [9, 1, 9, 1, 5]), ((1, 0), [9, 1, 5, 1, 5]), ((0, 1, 2), [9, 9, 1, 5, 5])):
            output = bytearray(5)
            run_tray((jobs[at] for at in order), ROW, output)
            self.assertEqual(list(output), wanted)

    def test_a_scratch_for_the_largest(self):
        sides = [(3, 1), (40, 30), (1, 1), (0, 5)]
        pages = [Page(offset=0, width=width, height=height, stride=40) for width, height in sides]
        jobs = [TrayJob(ticket(), page, Spot(offset=0, stride=40)) for page in pages]
        results = run_tray(jobs, bytes(1200), bytearray(1200))
        self.assertEqual([result.refused and result.refused.refusal for result in results], [None, None, None, 10])

    def test_no_job(self):
        self.assertEqual(run_tray([], b"", bytearray()), [])


class Refusals(unittest.TestCase):
    def test_more_than_256_jobs(self):
        jobs = [TrayJob(ticket().encode(), ALONE, SPOT)] * 257
        output, scratch = bytearray([7] * 3), bytearray([8] * 15)
        with self.assertRaises(Refused) as raised:
            run_tray(jobs, ROW, output, scratch)
        self.assertEqual(str(raised.exception), "refused 18 at 0: the list has more than 256 jobs")
        self.assertEqual((output, scratch), (bytearray([7] * 3), bytearray([8] * 15)))
        self.assertEqual(run_tray(jobs[1:], ROW, output, scratch), [Result(6, None)] * 256)


class Slips(unittest.TestCase):
    """What the library cannot see, and the package does."""

    def slipped(self, error, sentence, *, job=TrayJob(ticket(), ALONE, SPOT), source=ROW, **buffers):
        output = buffers.pop("output", None)
        output = bytearray(3) if output is None else output
        with self.assertRaises(error) as raised:
            run_tray([TrayJob(ticket(), ALONE, SPOT), job], source, output, **buffers)
        self.assertEqual(str(raised.exception), sentence)

    def test_jobs(self):
        good = TrayJob(ticket(), ALONE, SPOT)
        self.slipped(TypeError, "job 1 is of type tuple, not a TrayJob", job=(ticket(), ALONE, SPOT))
        sentence = "job 1: the page is a Page, and its place in the output a Spot"
        self.slipped(TypeError, sentence, job=TrayJob(ticket(), SPOT, ALONE))
        sentence = "job 1: the page's width is -1, which has no place in 64 bits"
        self.slipped(OverflowError, sentence, job=good._replace(page=ALONE._replace(width=-1)))
        sentence = "job 1: the spot's stride is 3.0, not a whole number"
        self.slipped(TypeError, sentence, job=good._replace(spot=SPOT._replace(stride=3.0)))
        sentence = "job 1: the ticket is of type str, not a buffer of bytes"
        self.slipped(TypeError, sentence, job=good._replace(ticket="P5"))

    def test_tickets_that_cannot_be_encoded(self):
        good, boxed = TrayJob(ticket(), ALONE, SPOT), ticket()
        sentence = "job 1: dx is 40000, which has no place in 16 bits with a sign"
        self.slipped(OverflowError, sentence, job=good._replace(ticket=ticket(dx=40000)))
        sentence = "job 1: length is 2.0, not a whole number"
        self.slipped(TypeError, sentence, job=good._replace(ticket=ticket(length=2.0)))
        boxed.boxes.append((1, 2, 3))
        sentence = "job 1: box 0 is (1, 2, 3), not (left, top, width, height)"
        self.slipped(TypeError, sentence, job=good._replace(ticket=boxed))

    def test_buffers(self):
        self.slipped(TypeError, "the source is of type str, not a buffer of bytes", source="P5")
        self.slipped(BufferError, "the output cannot be written", output=bytes(3))
        self.slipped(BufferError, "the scratch cannot be written", scratch=bytes(15))

    def test_buffers_that_overlap(self):
        sentence = "a buffer that is written overlaps another buffer of the job"
        tray, encoded = memoryview(bytearray(40)), bytearray(ticket().encode())
        self.slipped(ValueError, sentence, source=tray[:3], output=tray[2:5])
        self.slipped(ValueError, sentence, source=tray[:3], scratch=tray[2:17])
        self.slipped(ValueError, sentence, output=tray[:3], scratch=tray[2:17])
        self.slipped(ValueError, sentence, job=TrayJob(encoded, ALONE, SPOT), scratch=encoded)
        run_tray([TrayJob(encoded, ALONE, SPOT)], tray[:3], tray[3:6], tray[6:21])

    def test_given_back_after_a_refusal(self):
        source, output = bytearray(ROW), bytearray(2)
        (result,) = run_tray([TrayJob(ticket(), ALONE, SPOT)], source, output)
        self.assertEqual(result.refused.refusal, 12)
        source.append(1)
        output.append(1)


if __name__ == "__main__":
    unittest.main()
