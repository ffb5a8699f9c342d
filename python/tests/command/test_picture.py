"""Pictures of reasons: well-formed, with every mark, nothing of what is hidden, and small however long the segment."""

import importlib.util
import io
import itertools
import re
import unittest
import xml.etree.ElementTree as ElementTree
from unittest import mock

import sotrugla
from sotrugla import Pixel, Ticket
from sotrugla.command import picture
from sotrugla.command.picture import flags, marks, png, svg
from sotrugla.command.picture.drawing import Cells, Words, width_of, wrapped
from sotrugla.command.picture.lines import Sides
from sotrugla.command.picture.views import Room, View, around, shown

from ..jobs import greys

INSTALLED = importlib.util.find_spec("PIL") is not None
if INSTALLED:
    from PIL import Image, ImageFont

SIDES = (60, 45)
FILE = b"P5 60 45 255\n" + greys(*SIDES)
SVG = "{http://www.w3.org/2000/svg}"
VECTORS = [(1, 0), (0, 1), (1, 1), (2, -1), (-1, 3)]
MAKERS = (Ticket.erosion, Ticket.dilation, Ticket.opening, Ticket.closing)


def drawn(ticket, column, row, file=FILE, name="page.pgm"):
    reason = sotrugla.why_pgm(ticket, file, column=column, row=row)
    return reason, picture.drawing(name, file, ticket, reason)


def texts(drawing, name):
    return [part.text for part in drawing.parts if isinstance(part, Words) and part.name == name]


def named(drawing):
    """The names of all parts but the cells."""
    return {part.name for part in drawing.parts if not isinstance(part, Cells)}


class Marks(unittest.TestCase):
    def test_two_passes(self):
        for make, along in itertools.product((Ticket.opening, Ticket.closing), VECTORS):
            reason, drawing = drawn(make(along=along, length=5), 30, 20)
            self.assertEqual(texts(drawing, "title"), ["BEFORE", "BETWEEN THE PASSES", "AFTER"])
            self.assertLessEqual({"asked", "through", "from", "window", "line", "pole"}, named(drawing))
            said = " ".join(texts(drawing, "sentence"))
            self.assertEqual(said, f"{reason}.".capitalize())
            self.assertEqual(drawing.title, str(reason))

    def test_one_pass(self):
        for make, along in itertools.product((Ticket.erosion, Ticket.dilation), VECTORS):
            _, drawing = drawn(make(along=along, length=5), 30, 20)
            self.assertEqual(texts(drawing, "title"), ["BEFORE", "AFTER"])
            self.assertNotIn("through", named(drawing))
            self.assertLessEqual({"asked", "from", "window"}, named(drawing))

    def test_the_greys_of_each_time(self):
        ticket = Ticket.opening(along=(1, 0), length=5)
        reason, drawing = drawn(ticket, 30, 20)
        self.assertNotIn(reason.through, (reason.pixel, reason.from_))
        between = sotrugla.run_pgm(Ticket.erosion(along=(1, 0), length=5), FILE).file
        before, between = (file[sotrugla.read_pgm(file).start :] for file in (FILE, between))
        asked, through = (pixel.row * SIDES[0] + pixel.column for pixel in (reason.pixel, reason.through))
        wanted = [f"asked: {grey}" for grey in (before[asked], between[asked], reason.grey)]
        self.assertEqual(texts(drawing, "asked"), wanted)
        self.assertEqual(texts(drawing, "through"), [f"by way of: {grey}" for grey in (before[through], reason.grey)])
        self.assertEqual(texts(drawing, "from"), [f"from: {reason.grey}"])

    def test_an_arrow_for_each_pass_that_moves_a_grey(self):
        for make, pixel in itertools.product(MAKERS, ((30, 20), (0, 0), (59, 44))):
            reason, drawing = drawn(make(along=(1, 0), length=5), *pixel)
            taken = [reason.from_, reason.through or reason.pixel, reason.pixel]
            moves = sum(one != other for one, other in zip(taken, taken[1:]))
            arrows = [part for part in drawing.parts if getattr(part, "points", None) and part.name == "arrow"]
            self.assertEqual(len(arrows), moves)

    def test_neighbours_on_a_small_scale(self):
        """The marks of two neighbours leave room for an arrow, however small the pixels are."""
        for side in (6, 22, 40):
            for end in ((side, 0), (0, side), (-side, side), (0, -side)):
                _, bow, head = marks.arrow("arrow", (0, 0), end, side, "#000000")
                self.assertGreater(len(bow.lines[0]), 4)
                self.assertEqual(len(head.points), 3)

    def test_names_of_one_pixel_share_a_flag(self):
        reason, drawing = drawn(Ticket.opening(along=(1, 0), length=1), 30, 20)
        self.assertEqual(texts(drawing, "from"), [f"asked, by way of, from: {reason.grey}"])
        self.assertNotIn("arrow", named(drawing))

    def test_a_page_of_few_greys_is_shown_up_to_white(self):
        file = b"P5 3 1 9\n" + bytes([9, 1, 0])
        _, drawing = drawn(Ticket.erosion(along=(1, 0), length=1), 1, 0, file)
        cells = [part for part in drawing.parts if isinstance(part, Cells)]
        self.assertEqual([part.rows for part in cells], [[bytes([255, 28, 0])]] * 2)
        self.assertEqual(texts(drawing, "grey"), ["1", "1"])


class Hidden(unittest.TestCase):
    def setUp(self):
        self.ticket = Ticket.closing(along=(1, 0), length=5, hide=[(50, 0, 1, 1), (28, 18, 6, 4)])

    def test_the_box_decides(self):
        _, drawing = drawn(self.ticket, 30, 20)
        self.assertEqual(texts(drawing, "title"), ["BEFORE", "AFTER"])
        self.assertLessEqual({"asked", "hidden", "box"}, named(drawing))
        self.assertEqual(texts(drawing, "asked"), ["asked: hidden", "asked: 255"])
        self.assertIn("box 1, which decides", texts(drawing, "legend"))

    def test_no_picture_shows_what_is_hidden(self):
        """Whatever the pixels under a box are, the picture is the same."""
        other = bytearray(FILE)
        for column, row in itertools.product(range(28, 34), range(18, 22)):
            other[len(FILE) - SIDES[0] * SIDES[1] + row * SIDES[0] + column] ^= 255
        self.assertNotEqual(bytes(other), FILE)
        for pixel in ((30, 20), (27, 20), (34, 19), (10, 20)):
            pictures = [svg.written(drawn(self.ticket, *pixel, bytes(file))[1]) for file in (FILE, other)]
            self.assertEqual(*pictures)

    def test_a_box_in_one_of_several_views(self):
        """The others keep their rows as they are."""
        file = b"P5 2000 9 255\n" + b"\xff" * 8000 + b"\x00" + b"\xff" * 9999
        for left in (3, 300, 1990):
            ticket = Ticket.erosion(along=(1, 0), length=4001, hide=[(left, 2, 9, 3)])
            reason, drawing = drawn(ticket, 1500, 4, file)
            self.assertEqual(reason.from_, Pixel(0, 4))
            self.assertRegex(texts(drawing, "note")[0], "^The named pixels lie far apart: ")
            cells = [part for part in drawing.parts if isinstance(part, Cells)]
            self.assertEqual([{*map(len, part.rows)} for part in cells], [{16}, {31}])
            self.assertEqual("hidden" in named(drawing), left == 3)

    def test_a_large_box_is_cut(self):
        ticket = Ticket.closing(along=(1, 0), length=5, hide=[(0, 0, 3000, 2000)])
        file = b"P5 3000 2001 255\n" + bytes(3000 * 2001)
        _, drawing = drawn(ticket, 1500, 1000, file)
        self.assertEqual(texts(drawing, "note"), ["What is outlined goes on beyond what is shown."])


class Views(unittest.TestCase):
    room = Room(Sides(400, 800), Sides(1300, 180))

    def test_everything_is_shown_where_it_has_room(self):
        pixels = [[Pixel(50, 40), Pixel(52, 40)], [Pixel(50, 40)]]
        views, note = shown(pixels, [Pixel(48, 40), Pixel(55, 40)], Sides(500, 500), self.room)
        self.assertEqual((views[0], note), (views[1], ""))
        self.assertTrue(all(views[0].holds(pixel) for pixel in (*pixels[0], Pixel(48, 40), Pixel(55, 40))))

    def test_a_long_window_is_cut(self):
        pixels, window = [Pixel(50, 40), Pixel(52, 40)], [Pixel(0, 40), Pixel(499, 40)]
        views, note = shown([pixels], window, Sides(500, 500), self.room)
        self.assertTrue(all(map(views[0].holds, pixels)))
        self.assertEqual(note, "What is outlined goes on beyond what is shown.")

    def test_far_pixels_have_views_of_their_own(self):
        views, note = shown([[Pixel(5, 40), Pixel(499, 40)], [Pixel(5, 40)]], [], Sides(500, 500), self.room)
        self.assertEqual([view.holds(Pixel(499, 40)) for view in views], [True, False])
        self.assertEqual([view.holds(Pixel(5, 40)) for view in views], [False, True])
        self.assertRegex(note, "^The named pixels lie far apart: ")

    def test_a_view_keeps_to_the_page(self):
        self.assertEqual(around([Pixel(0, 0)], 4, 6, Sides(3, 9)), View(0, 0, 3, 7))

    def test_long_segments_make_no_large_pictures(self):
        file = b"P5 900 700 255\n" + greys(900, 700)
        for length, along in itertools.product((101, 8192), VECTORS):
            _, drawing = drawn(Ticket.erosion(along=along, length=length), 450, 350, file)
            self.assertLess(drawing.width, 1700)
            self.assertLess(drawing.height, 1300)
            self.assertLess(len(svg.written(drawing)), 600_000)


class Layout(unittest.TestCase):
    """No two texts on one another, and none past the edges; letters are taken as wide as room is kept for them."""

    def boxes(self, drawing):
        for part in drawing.parts:
            if isinstance(part, Words) and part.text:
                width = width_of(part.text, part.size, part.bold)
                start = part.left - width * {"start": 0, "middle": 0.5, "end": 1}[part.anchor]
                yield start, part.base - part.size * 0.75, start + width, part.base, part

    def is_clear(self, drawing):
        placed = [*self.boxes(drawing)]
        for left, top, right, bottom, part in placed:
            self.assertGreaterEqual(min(left, top), 0, part)
            self.assertLessEqual(right, drawing.width + 1, part)
            self.assertLessEqual(bottom, drawing.height, part)
        for one, other in itertools.combinations(placed, 2):
            apart = one[2] <= other[0] or other[2] <= one[0] or one[3] <= other[1] or other[3] <= one[1]
            greys_apart = one[4].name == other[4].name == "grey"
            self.assertTrue(apart or greys_apart, (one[4], other[4]))

    def test_pages_of_all_sizes(self):
        for make, along in itertools.product(MAKERS, VECTORS):
            for pixel in ((0, 0), (59, 44), (30, 20), (1, 43)):
                self.is_clear(drawn(make(along=along, length=7, hide=[(40, 10, 9, 9)]), *pixel)[1])
        for width, height in ((1, 1), (3, 1), (1, 9), (60, 2)):
            file = b"P5 %d %d 255\n" % (width, height) + greys(width, height)
            for make, along in itertools.product(MAKERS, VECTORS):
                self.is_clear(drawn(make(along=along, length=3), width - 1, height - 1, file)[1])

    def test_flags_do_not_cross(self):
        """A mark at either end of a wide view, and one in the middle."""
        frame = picture.sheet.Frame(View(0, 0, 100, 9), 50, 100, 10)
        roles = picture.panels.ASKED, picture.panels.THROUGH, picture.panels.FROM
        for columns in itertools.permutations((0, 1, 50, 98, 99), 3):
            hung = [flags.Flag(role, Pixel(column, 4), f"{role.name}: 255") for role, column in zip(roles, columns)]
            placed = flags._hung(hung, frame, 0, frame.right)
            self.assertFalse(any(one.is_crossed(other) for one in placed for other in placed))
            self.assertTrue(all(0 <= one.start and one.start + one.flag.width <= frame.right for one in placed))

    def test_long_sentences_are_wrapped(self):
        lines = wrapped("one two three four", 10, False, 60)
        self.assertEqual(" ".join(lines), "one two three four")
        self.assertGreater(len(lines), 1)
        self.assertEqual(wrapped("unbreakable", 10, False, 5), ["unbreakable"])


class Svg(unittest.TestCase):
    def test_well_formed_with_the_marks(self):
        reason, drawing = drawn(Ticket.closing(along=(5, 3), length=5, hide=[(33, 18, 9, 9)]), 30, 20)
        root = ElementTree.fromstring(svg.written(drawing))
        self.assertEqual((root.tag, root.get("width")), (f"{SVG}svg", str(drawing.width)))
        self.assertEqual(root.find(f"{SVG}title").text, str(reason))
        classes = {element.get("class") for element in root.iter()}
        self.assertLessEqual({"page", "grid", "asked", "through", "from", "window", "line", "hidden"}, classes)
        self.assertEqual(len(root.findall(f"{SVG}g[@class='page']")), 3)

    def test_each_grey_is_drawn_where_it_is(self):
        rows = [bytes([9, 9, 200]), bytes([9, 200, 200])]
        drawing = picture.sheet.Drawing(40, 30, "", [Cells(5, 5, 10, rows)])
        root, found = ElementTree.fromstring(svg.written(drawing)), {}
        for path in root.iter(f"{SVG}path"):
            for x, y, run in re.findall(r"M(\d+) (\d+)h(\d+)v1", path.get("d")):
                found.update({(int(x) + at, int(y)): int(path.get("fill")[1:3], 16) for at in range(int(run))})
        self.assertEqual(found, {(x, y): rows[y][x] for y in range(2) for x in range(3)})

    def test_any_name_of_a_page(self):
        for name in ("a<b>&c.pgm", 'quote".pgm', "line\nbreak.pgm", "\x1b[31m.pgm", "ümlaut.pgm"):
            _, drawing = drawn(Ticket.erosion(along=(1, 0), length=3), 3, 3, name=name)
            root = ElementTree.fromstring(svg.written(drawing))
            told = [text.text for text in root.iter(f"{SVG}text") if text.get("class") == "order"]
            self.assertTrue(told[0].startswith(name.translate({10: "\\n", 27: "\\x1b"})), told)


@unittest.skipUnless(INSTALLED, "Pillow is not installed")
class Png(unittest.TestCase):
    def setUp(self):
        png._font.cache_clear()
        self.addCleanup(png._font.cache_clear)

    def image(self, drawing):
        return Image.open(io.BytesIO(png.written(drawing))).convert("RGB")

    def test_size_and_colours(self):
        _, drawing = drawn(Ticket.closing(along=(5, 3), length=5, hide=[(33, 18, 9, 9)]), 30, 20)
        image = self.image(drawing)
        self.assertEqual(image.size, (drawing.width, drawing.height))
        colours = {colour for _, colour in image.getcolors(1 << 24)}
        for role in (picture.panels.ASKED, picture.panels.THROUGH, picture.panels.FROM):
            self.assertIn(tuple(bytes.fromhex(role.colour[1:])), colours, role.name)

    def test_each_grey_is_drawn_where_it_is(self):
        rows = [bytes([9, 9, 200]), bytes([9, 200, 200])]
        image = self.image(picture.sheet.Drawing(40, 30, "", [Cells(5, 5, 10, rows)]))
        for x, y in itertools.product(range(3), range(2)):
            self.assertEqual(image.getpixel((10 + 10 * x, 10 + 10 * y)), (rows[y][x],) * 3)

    def test_without_any_font_file(self):
        places = ((10, "start"), (100, "middle"), (190, "end"))
        words = [Words("x", at, 30, "37", 14, anchor=anchor) for at, anchor in places]
        drawing = picture.sheet.Drawing(200, 40, "", words)
        with mock.patch.object(ImageFont, "truetype", side_effect=OSError):
            image = self.image(drawing)
        for left in (0, 80, 160):
            self.assertLess(min(image.crop((left, 10, left + 40, 36)).convert("L").tobytes()), 128)


if __name__ == "__main__":
    unittest.main()
