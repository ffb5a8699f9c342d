"""Why a pixel comes out as it does: the sentence, its numbers as JSON, and each wrong question."""

import json
import os
import unittest
from unittest import mock

import sotrugla
from sotrugla.command import picture

from .support import ALONG, PAGE, SIDES, TICKET, CommandCase

ORDER = ("--operation", "close", *ALONG)
PIXEL = ("--pixel", "12,7")
REASON = sotrugla.why_pgm(TICKET, PAGE, column=12, row=7)
HIDING = ("--hide", "0,0,1,1", "--hide", "11,6,3,2")


class Sentence(CommandCase):
    def test_options_ready_tickets_and_standard_input(self):
        page, ticket = self.put("page.pgm"), self.put("ticket", TICKET.encode())
        wanted = 0, f"{REASON}\n".encode(), ""
        self.assertEqual(self.run_apart("why", page, *PIXEL, *ORDER), wanted)
        self.assertEqual(self.run_apart("why", page, *PIXEL, "--ticket", ticket), wanted)
        self.assertEqual(self.run_apart("why", page, *PIXEL, "--ticket", ticket, "--operation", "close"), wanted)
        self.assertEqual(self.run_apart("why", "-", *PIXEL, *ORDER, given=PAGE), wanted)

    def test_each_operation(self):
        makers = {
            "erode": sotrugla.Ticket.erosion,
            "dilate": sotrugla.Ticket.dilation,
            "open": sotrugla.Ticket.opening,
            "close": sotrugla.Ticket.closing,
        }
        for word, make in makers.items():
            _, written, _ = self.run_apart("why", "-", *PIXEL, "--operation", word, *ALONG, given=PAGE)
            wanted = sotrugla.why_pgm(make(along=(5, 3), length=4), PAGE, column=12, row=7)
            self.assertEqual(written.decode(), f"{wanted}\n")

    def test_a_hidden_pixel(self):
        _, written, _ = self.run_apart("why", "-", *PIXEL, *ORDER, *HIDING, given=PAGE)
        said = "column 12, row 7 is white because it is hidden by box 1: left 11, top 6, width 3, height 2\n"
        self.assertEqual(written.decode(), said)

    def test_an_angle_is_told_with_its_vector(self):
        words = ("--operation", "close", "--along", "31deg", "--length", "4")
        status, written, said = self.run_apart("why", "-", *PIXEL, *words, given=PAGE)
        self.assertEqual((status, written), (0, f"{REASON}\n".encode()))
        self.assertEqual(said, "along 31deg: the vector 5,3 (30.96deg)\n")

    def test_no_page_is_written(self):
        self.put("page.pgm")
        self.run_apart("why", "page.pgm", *PIXEL, *ORDER)
        self.assertEqual(self.names(), ["page.pgm"])


class Json(CommandCase):
    def told(self, *words):
        status, written, said = self.run_apart("why", "-", *words, "--json", given=PAGE)
        return status, json.loads(written), said

    def test_a_reason(self):
        status, told, said = self.told(*PIXEL, *ORDER)
        self.assertEqual((status, said), (0, ""))
        pixels = {name: pixel._asdict() for name, pixel in (("through", REASON.through), ("from", REASON.from_))}
        numbers = {"refusal": 0, "place": 0, "kind": 4, "grey": REASON.grey, "phase": 0, "box": None, "hidden": None}
        self.assertEqual(told, {"pixel": {"column": 12, "row": 7}, **pixels, **numbers, "sentence": str(REASON)})

    def test_a_hidden_pixel(self):
        _, told, _ = self.told(*PIXEL, *ORDER, *HIDING)
        self.assertEqual((told["kind"], told["box"], told["grey"], told["from"]), (1, 1, 255, None))
        self.assertEqual(told["hidden"], {"left": 11, "top": 6, "width": 3, "height": 2})

    def test_a_refusal(self):
        status, told, said = self.told("--pixel", "23,0", *ORDER)
        self.assertEqual((status, said), (1, "-: refused 19 at 0: the pixel is off the page\n"))
        self.assertEqual(told, {"refusal": 19, "place": 0, "sentence": "the pixel is off the page"})


class Wrong(CommandCase):
    def misused(self, *words):
        """What is said of a wrong call, by which nothing is written."""
        self.put("page.pgm")
        before = self.names()
        status, said = self.run_here("why", self.at("page.pgm"), *words)
        self.assertEqual((status, self.names()), (2, before), said)
        return said

    def test_pixels(self):
        for typed in ("12", "12,", "12,7,1", "x,y", "1.5,2", "-1,2", "12;7", " 12,7"):
            words = f"argument --pixel: {typed} is not COLUMN,ROW, whole numbers from 0\n"
            self.assertTrue(self.misused("--pixel", typed, *ORDER).endswith(words), typed)
        self.assertIn("the following arguments are required: --pixel", self.misused(*ORDER))

    def test_a_pixel_off_the_page(self):
        page = self.put("page.pgm")
        for pixel in ("23,0", "0,17", "999999999,999999999"):
            wanted = 1, f"{page}: refused 19 at 0: the pixel is off the page\n"
            drawn = self.at("why.svg")
            self.assertEqual(self.run_here("why", page, "--pixel", pixel, *ORDER, "--picture", drawn), wanted)
        self.assertEqual(self.names(), ["page.pgm"])

    def test_orders(self):
        needed = "give --operation, --along and --length, or --ticket\n"
        self.assertTrue(self.misused(*PIXEL).endswith(needed))
        self.assertTrue(self.misused(*PIXEL, *ALONG).endswith(needed))
        said = self.misused(*PIXEL, "--operation", "close", "--length", "4")
        self.assertTrue(said.endswith("give --along and --length, or --ticket\n"))
        self.assertIn("argument --operation: invalid choice: 'clean'", self.misused(*PIXEL, "--operation", "clean"))
        said = self.misused(*PIXEL, "--operation", "open", "--along", "2,2", "--length", "4")
        self.assertTrue(said.startswith("refused 6 at 8: "))

    def test_ready_tickets(self):
        ticket = self.put("ticket", TICKET.encode())
        said = self.misused(*PIXEL, "--ticket", ticket, "--length", "4")
        self.assertTrue(said.endswith("--ticket orders everything; leave out --length\n"))
        said = self.misused(*PIXEL, "--ticket", ticket, "--operation", "open")
        self.assertTrue(said.endswith(f"{ticket} orders close, not open\n"))

    def test_files(self):
        missing = self.at("none.pgm")
        wanted = 1, f"{missing}: cannot be read: No such file or directory\n"
        self.assertEqual(self.run_here("why", missing, *PIXEL, *ORDER), wanted)
        cut = self.put("cut.pgm", PAGE[:-1])
        status, said = self.run_here("why", cut, *PIXEL, *ORDER)
        self.assertEqual((status, said.startswith(f"{cut}: refused 17 at {len(PAGE) - 1}: ")), (1, True), said)
        two = self.put("two.pgm", PAGE + PAGE)
        status, said = self.run_here("why", two, *PIXEL, *ORDER)
        self.assertEqual((status, "it has more behind its first image" in said), (1, True), said)

    def test_boxes_past_the_edge(self):
        page = self.put("page.pgm")
        status, said = self.run_here("why", page, *PIXEL, *ORDER, "--hide", f"{SIDES[0]},0,1,1")
        self.assertEqual((status, said.startswith(f"{page}: refused 14 at 0: ")), (1, True), said)


class Picture(CommandCase):
    """What becomes of the file; test_picture has what is drawn."""

    def test_written_beside_the_sentence(self):
        self.put("page.pgm")
        status, written, said = self.run_apart("why", "page.pgm", *PIXEL, *ORDER, "--picture", "why.svg")
        self.assertEqual((status, written, said), (0, f"{REASON}\n".encode(), ""))
        self.assertEqual(self.names(), ["page.pgm", "why.svg"])
        wanted = picture.WRITERS[".svg"](picture.drawing("page.pgm", PAGE, TICKET, REASON))
        self.assertEqual((self.folder / "why.svg").read_bytes(), wanted)

    def test_as_private_as_its_page(self):
        os.chmod(self.put("page.pgm"), 0o600)
        self.run_apart("why", "page.pgm", *PIXEL, *ORDER, "--picture", "why.svg")
        self.assertEqual(os.stat(self.at("why.svg")).st_mode & 0o777, 0o600)

    def refused(self, *words):
        page = self.put("page.pgm")
        before = self.names()
        status, said = self.run_here("why", page, *PIXEL, *ORDER, *words)
        self.assertEqual(self.names(), before)
        return status, said

    def test_other_endings(self):
        for name in ("why", "why.gif", "why.pgm", "-", "why.svg/"):
            status, said = self.refused("--picture", self.at(name) if name != "-" else name)
            self.assertEqual(status, 2)
            self.assertTrue(said.endswith(": the name of a picture ends in .svg or .png\n"), said)

    def test_an_input(self):
        page = self.put("page.svg")
        status, said = self.run_here("why", page, *PIXEL, *ORDER, "--picture", page)
        self.assertEqual((status, (self.folder / "page.svg").read_bytes()), (2, PAGE))
        self.assertTrue(said.endswith(f"{page} is an input, and the output would be written over it\n"), said)

    def test_no_folder(self):
        drawn = self.at("none/why.svg")
        status, said = self.run_apart("why", self.put("page.pgm"), *PIXEL, *ORDER, "--picture", drawn)[::2]
        self.assertEqual((status, said), (1, f"{drawn}: cannot be written: No such file or directory\n"))
        self.assertEqual(self.names(), ["page.pgm"])

    def test_png_without_pillow(self):
        drawn = self.at("why.png")
        with mock.patch.dict("sys.modules", {"PIL": None, "PIL.Image": None}):
            status, said = self.refused("--picture", drawn)
        words = "Pillow is not installed (pip install Pillow); a name that ends in .svg needs no Pillow"
        self.assertEqual((status, said), (1, f"{drawn}: cannot be drawn: {words}\n"))


if __name__ == "__main__":
    unittest.main()
