"""Pages as arrays, images and other buffers: filtered as in a tray, whatever their rows are like in memory."""

import pickle
import subprocess
import sys
import unittest
import unittest.mock

import sotrugla
from sotrugla import CLOSE, DILATE, ERODE, OPEN, PERIODIC, Page, Refused, Spot, arrays

from .jobs import PYTHON, greys, installed, ticket

numpy, pillow = installed("numpy"), installed("PIL.Image")
FILTERS = {ERODE: sotrugla.erosion, DILATE: sotrugla.dilation, OPEN: sotrugla.opening, CLOSE: sotrugla.closing}
WIDTH, HEIGHT = 13, 7
ORDER = {"along": (5, 3), "length": 5, "phase": 2, "hide": [(2, 1, 3, 2), (12, 6, 1, 1)]}


def pixels():
    return memoryview(greys(WIDTH, HEIGHT)).cast("B", [HEIGHT, WIDTH])


def page_of(rows):
    return memoryview(b"".join(map(bytes, rows))).cast("B", [len(rows), len(rows[0])])


def in_a_tray(job, page):
    """The rows of the page as the job on a tray gives them."""
    height, width = page.shape
    output = bytearray(width * height)
    sotrugla.run(job, Page(0, width, height, width), page.tobytes(), Spot(0, width), output)
    return memoryview(output).cast("B", [height, width]).tolist()


def opened(page):
    """By what was asked of it in a tray."""
    return in_a_tray(ticket(OPEN, length=4, origin=2), page)


class Buffers(unittest.TestCase):
    def test_each_filter(self):
        for operation, name in FILTERS.items():
            job = ticket(operation, dx=5, dy=3, length=5, origin=2, phase=2, boxes=ORDER["hide"])
            found = name(pixels(), **ORDER)
            self.assertEqual((type(found), found.format, found.tolist()), (memoryview, "B", in_a_tray(job, pixels())))
            self.assertIs(pickle.loads(pickle.dumps(name)), name)

    def test_origin_and_periodic_line(self):
        for operation, name in FILTERS.items():
            job = ticket(operation, PERIODIC, dx=2, dy=-2, length=4, origin=3)
            found = name(pixels(), along=(2, -2), length=4, origin=3, periodic=True)
            self.assertEqual(found.tolist(), in_a_tray(job, pixels()))

    def test_flips(self):
        # (4, 3) and (1, 2) have ties, which go away from where the line starts, upwards and downwards alike.
        for name in FILTERS.values():
            rising = name(pixels(), along=(4, 3), length=4, phase=1, hide=[(2, 1, 3, 2)])
            falling = name(page_of(pixels().tolist()[::-1]), along=(4, -3), length=4, phase=1, hide=[(2, 4, 3, 2)])
            self.assertEqual(falling.tolist(), rising.tolist()[::-1])
            self.assertNotEqual(falling.tolist(), rising.tolist())
            right = name(pixels(), along=(1, 2), length=4, hide=[(2, 1, 3, 2)])
            left = name(page_of([row[::-1] for row in pixels().tolist()]), along=(-1, 2), length=4, hide=[(8, 1, 3, 2)])
            self.assertEqual(left.tolist(), [row[::-1] for row in right.tolist()])

    def test_result_is_new(self):
        room = bytearray(pixels().tobytes())
        found = sotrugla.erosion(memoryview(room).cast("B", [HEIGHT, WIDTH]), along=(1, 0), length=1)
        found[0, 0] ^= 255
        self.assertEqual(room, pixels().tobytes())

    def test_refused(self):
        cases = [
            ({"length": 0}, "^refused 7 at 15: "),
            ({"along": (2, 2)}, "^refused 6 at 8: dx and dy of a connected line have a common divisor above 1 "),
            ({"hide": [(12, 6, 2, 1)]}, "^refused 14 at 0: "),
        ]
        for slip, words in cases:
            with self.assertRaisesRegex(Refused, words):
                sotrugla.opening(pixels(), **{"along": (1, 0), "length": 3, **slip})

    def test_too_wide(self):
        for width in (8193, 16385):
            with self.assertRaisesRegex(Refused, "^refused 10 at 0: the width is not 1 to 8192$"):
                sotrugla.opening(memoryview(bytes(width)).cast("B", [1, width]), along=(1, 0), length=3)

    def test_no_pages(self):
        cases = [
            (b"123", "^the page has 1 dimension, not 2$"),
            (memoryview(bytes(8)).cast("b", [2, 4]), r"^the page is a buffer of format 'b', not of bytes \(uint8\)$"),
            ([[1, 2], [3, 4]], "^the page is of type list, not a buffer of bytes$"),
        ]
        for page, words in cases:
            with self.assertRaisesRegex(TypeError, words):
                sotrugla.opening(page, along=(1, 0), length=3)

    def test_words_that_are_due(self):
        for order in ({"along": (1, 0)}, {"length": 3}):
            with self.assertRaises(TypeError):
                sotrugla.opening(pixels(), **order)

    def test_nothing_is_imported(self):
        code = (
            "import sys, sotrugla; sotrugla.erosion(memoryview(bytes(4)).cast('B', [2, 2]), along=(1, 0), length=2); "
            "print({'numpy', 'PIL'} & {name.split('.')[0] for name in sys.modules})"
        )
        printed = subprocess.check_output([sys.executable, "-B", "-c", code], cwd=PYTHON, text=True)
        self.assertEqual(printed, "set()\n")


@unittest.skipUnless(numpy, "numpy is not installed")
class Arrays(unittest.TestCase):
    def setUp(self):
        self.room = numpy.frombuffer(greys(300, 40), numpy.uint8).reshape(40, 300)

    def is_opened(self, page, lent):
        """Whether the page is lent, or copied first, is told by who filters it."""
        before = page.copy()
        with unittest.mock.patch.object(arrays, "_lent_copy", wraps=arrays._lent_copy) as copied:
            found = sotrugla.opening(page, along=(1, 0), length=4)
        self.assertEqual((type(found), found.dtype, found.shape), (numpy.ndarray, numpy.uint8, page.shape))
        self.assertEqual(found.tolist(), opened(memoryview(numpy.ascontiguousarray(page))))
        self.assertTrue((page == before).all())
        self.assertTrue(found.flags.writeable)
        self.assertEqual(not copied.called, lent)

    def test_lent(self):
        room, wide = self.room, numpy.zeros((3, 16384), numpy.uint8)
        for page in (room, room[5:30, 17:100], room[::3, 250:], room[::-50, 9:], wide[:, 16000:], wide[::3, 9000:]):
            self.is_opened(page, lent=True)

    def test_copied(self):
        room, wide = self.room, numpy.zeros((3, 16385), numpy.uint8)
        same, by_columns = numpy.broadcast_to(room[0], (9, 300)), numpy.asfortranarray(room)
        colours = room.reshape(40, 100, 3)
        for page in (room[::-1], room[:, ::-1], colours[:, :, 1], room.T, wide[:, 16000:], same, by_columns):
            self.is_opened(page, lent=False)

    def test_memoryviews_of_arrays(self):
        for part in (self.room[5:30, 17:100], self.room[:, ::2]):
            found = sotrugla.opening(memoryview(part), along=(1, 0), length=4)
            self.assertEqual((type(found), found.tolist()), (memoryview, opened(memoryview(part))))

    def test_hidden_pixels_of_a_view(self):
        found = sotrugla.erosion(self.room[5:30, 17:100], along=(0, 1), length=3, hide=[(1, 2, 3, 4)])
        self.assertTrue((found[2:6, 1:4] == 255).all())
        self.assertEqual(found.shape, (25, 83))

    def test_no_pages(self):
        for kind, shown in (("int8", "b"), ("bool", r"\?"), ("uint16", "H"), ("float64", "d")):
            with self.assertRaisesRegex(TypeError, f"^the page is a buffer of format '{shown}', not of bytes"):
                sotrugla.opening(self.room.astype(kind), along=(1, 0), length=3)
        for shape, words in (((10, 20, 60), "3 dimensions"), ((12000,), "1 dimension")):
            with self.assertRaisesRegex(TypeError, f"^the page has {words}, not 2$"):
                sotrugla.opening(self.room.reshape(shape), along=(1, 0), length=3)

    def test_a_mask_is_not_lost(self):
        with self.assertRaisesRegex(TypeError, "^the page is a masked array, .* by hide=$"):
            sotrugla.opening(numpy.ma.masked_greater(self.room, 9), along=(1, 0), length=3)

    def test_empty(self):
        for shape, side in (((0, 5), "height"), ((5, 0), "width"), ((0, 0), "width")):
            with self.assertRaisesRegex(Refused, f"^refused 10 at 0: the {side} is not 1 to 8192$"):
                sotrugla.opening(numpy.zeros(shape, numpy.uint8), along=(1, 0), length=3)


@unittest.skipUnless(pillow, "Pillow is not installed")
class Images(unittest.TestCase):
    def setUp(self):
        self.image = pillow.frombytes("L", (WIDTH, HEIGHT), pixels().tobytes())

    def test_opened(self):
        self.image.info["thumbnail"] = "the page, unhidden"
        found = sotrugla.opening(self.image, along=(1, 0), length=4)
        self.assertIsInstance(found, pillow.Image)
        self.assertEqual((found.mode, found.size, found.info), ("L", (WIDTH, HEIGHT), {}))
        self.assertEqual(list(found.getdata()), sum(opened(pixels()), []))
        self.assertEqual(self.image.tobytes(), pixels().tobytes())

    def test_other_modes(self):
        for mode in ("1", "RGB", "LA", "P", "I;16"):
            words = rf"^the image has mode '{mode}', not 'L': convert it to grey first, by image.convert\('L'\)$"
            with self.assertRaisesRegex(TypeError, words):
                sotrugla.opening(pillow.new(mode, (3, 3)), along=(1, 0), length=4)

    def test_empty(self):
        with self.assertRaisesRegex(Refused, "^refused 10 at 0: the height is not 1 to 8192$"):
            sotrugla.opening(pillow.new("L", (5, 0)), along=(1, 0), length=4)
