"""Pages in other formats by Pillow, where it is installed (Debian: python3-pil), and what is said where it is not."""

import importlib.util
import io
import os
import unittest
from unittest import mock

import sotrugla

from .support import ALONG, CLEAN, PAGE, SIDES, TICKET, CommandCase, modules_hidden

INSTALLED = importlib.util.find_spec("PIL") is not None
if INSTALLED:
    from PIL import Image

PIXELS, CLEAN_PIXELS = (file[sotrugla.read_pgm(file).start :] for file in (PAGE, CLEAN))
HINT = "; Pillow is not installed (pip install Pillow)\n"


class Without(CommandCase):
    """As if Pillow were not installed."""

    def run_without(self, *words):
        with mock.patch.dict("sys.modules", {"PIL": None, "PIL.Image": None}):
            return self.run_here("close", *words, *ALONG)

    def test_known_formats_get_a_hint(self):
        for start in (b"\x89PNG\r\n\x1a\n", b"II*\0", b"MM\0*", b"BM", b"\xff\xd8\xff\xe0"):
            path = self.put("page", start + b"more")
            status, said = self.run_without(path, "-o", self.at("out"))
            self.assertEqual(status, 1)
            self.assertTrue(said.startswith(f"{path}: refused 15 at 0: "), said)
            self.assertTrue(said.endswith(HINT), said)

    def test_others_get_none(self):
        for content in (b"", b"P6 1 1 255 abc", b"GIF89a", b"P5 damaged"):
            status, said = self.run_without(self.put("page", content), "-o", self.at("out"))
            self.assertEqual(status, 1)
            self.assertIn(": refused 15 at ", said)
            self.assertNotIn("Pillow", said)

    def test_p5_is_read_and_written(self):
        self.assertEqual(self.run_without(self.put("page.pgm"), "-o", self.at("out.pgm")), (0, ""))

    def test_other_endings_cannot_be_written(self):
        path, out = self.put("page.pgm"), self.at("out.png")
        status, said = self.run_without(path, "-o", out)
        self.assertEqual(status, 1)
        words = "cannot be written: Pillow is not installed (pip install Pillow)"
        self.assertEqual(said, f"{path}: {words} ({out})\n")
        self.assertEqual(self.names(), ["page.pgm"])

    def test_a_process_without_it(self):
        status, written, said = self.run_apart(
            "close", "-", "-o", "-", *ALONG, given=b"\x89PNG", before=modules_hidden("PIL")
        )
        self.assertEqual((status, written), (1, b""))
        self.assertTrue(said.endswith(HINT), said)


@unittest.skipUnless(INSTALLED, "Pillow is not installed")
class Formats(CommandCase):
    def image(self, mode="L", pixels=PIXELS):
        grey = Image.frombytes("L", SIDES, pixels)
        return grey if mode == "L" else grey.convert(mode)

    def put_image(self, name, image, **options):
        image.save(self.at(name), **options)
        return self.at(name)

    def clean(self, page, out):
        self.assertEqual(self.run_here("close", page, "-o", self.at(out), *ALONG), (0, ""))
        return self.at(out)

    def refused(self, page):
        """What is said of a page that is not finished."""
        status, said = self.run_here("close", page, "-o", self.at("out.png"), *ALONG)
        self.assertEqual((status, os.path.exists(self.at("out.png"))), (1, False))
        return said

    def test_grey_in_every_format(self):
        for name in ("page.png", "page.tif", "page.tiff", "page.bmp", "PAGE.PNG"):
            page = self.put_image(name, self.image())
            with Image.open(self.clean(page, "clean" + name)) as cleaned, Image.open(page) as given:
                self.assertEqual((cleaned.mode, cleaned.format), ("L", given.format))
                self.assertEqual(cleaned.tobytes(), CLEAN_PIXELS)

    def test_to_p5_and_from_it(self):
        page = self.put_image("page.png", self.image())
        with open(self.clean(page, "out.pgm"), "rb") as file:
            self.assertEqual(file.read(), CLEAN)
        with Image.open(self.clean(self.put("page.pgm"), "out.tif")) as cleaned:
            self.assertEqual((cleaned.mode, cleaned.tobytes()), ("L", CLEAN_PIXELS))

    def test_white_is_white_whatever_the_maximum(self):
        page = self.put("page.pgm", b"P5 3 1 9 " + bytes([9, 1, 5]))
        status, said = self.run_here(
            "open", page, "-o", self.at("out.png"), "--along", "1,0", "--length", "1", "--hide", "2,0,1,1"
        )
        self.assertEqual((status, said), (0, ""))
        with Image.open(self.at("out.png")) as cleaned:
            self.assertEqual(list(cleaned.tobytes()), [255, 28, 255])

    def test_bilevel_stays_bilevel(self):
        image = self.image().point(lambda grey: 255 * (grey > 99), "1")
        grey = b"P5\n%d\n%d\n255\n" % SIDES + image.convert("L").tobytes()
        wanted = sotrugla.run_pgm(TICKET, grey).file
        for name in ("page.png", "page.tif", "page.bmp"):
            page = self.put_image(name, image)
            with open(self.clean(page, "out.pgm"), "rb") as file:
                self.assertEqual(file.read(), wanted)
            with Image.open(self.clean(page, "out.png")) as cleaned:
                self.assertEqual((cleaned.mode, cleaned.convert("L").tobytes()), ("1", wanted[-len(PIXELS) :]))

    def test_dpi_is_kept(self):
        for name in ("page.png", "page.tif", "page.bmp", "page.jpg"):
            page = self.put_image(name, self.image(), dpi=(300, 200))
            for out in ("out.png", "out.tif", "out.bmp"):
                with Image.open(self.clean(page, out)) as cleaned:
                    self.assertEqual(tuple(map(round, cleaned.info["dpi"])), (300, 200), (name, out))

    def test_no_dpi_is_made_up(self):
        for said in ({}, {"x_resolution": 0, "y_resolution": 0}):
            with Image.open(self.clean(self.put_image("page.tif", self.image(), **said), "out.png")) as cleaned:
                self.assertNotIn("dpi", cleaned.info)

    def test_a_turned_image(self):
        for name in ("page.jpg", "page.png", "page.tif"):
            for orientation in (1, 3, 6):
                exif = Image.Exif()
                exif[0x0112] = orientation
                page = self.put_image(name, self.image(), exif=exif)
                if orientation == 1:
                    self.clean(page, "upright.png")
                    continue
                words = "it is shown turned, not as it is stored; turn it upright first"
                self.assertEqual(self.refused(page), f"{page}: cannot be cleaned: {words}\n")

    def test_compression_of_a_tiff_is_kept_if_it_loses_nothing(self):
        cases = [("1", "group4", "group4"), ("L", "tiff_lzw", "tiff_lzw"), ("L", "jpeg", "raw"), ("L", None, "raw")]
        for mode, given, kept in cases:
            page = self.put_image("page.tif", self.image(mode), compression=given)
            with Image.open(self.clean(page, "out.tif")) as cleaned:
                self.assertEqual(cleaned.info["compression"], kept)
            with Image.open(self.clean(page, "out.png")) as cleaned:
                self.assertEqual(cleaned.mode, mode)

    def test_a_jpeg_becomes_a_png_in_a_folder(self):
        pages = [self.put_image(name, self.image()) for name in ("a.jpg", "b.JPEG", "c.png")]
        with Image.open(pages[0]) as given:
            grey = b"P5\n%d\n%d\n255\n" % SIDES + given.tobytes()
        self.assertEqual(self.run_here("close", *pages, "-o", self.at("out"), *ALONG), (0, ""))
        self.assertEqual(self.names("out"), ["a.png", "b.png", "c.png"])
        with Image.open(self.at("out/a.png")) as cleaned:
            self.assertEqual(cleaned.tobytes(), sotrugla.run_pgm(TICKET, grey).file[-len(PIXELS) :])

    def test_a_jpeg_that_would_meet_a_png(self):
        pages = [self.put_image(name, self.image()) for name in ("a.jpg", "a.png")]
        status, said = self.run_here("close", *pages, "-o", self.at("out"), *ALONG)
        self.assertEqual((status, self.names()), (2, ["a.jpg", "a.png"]))
        self.assertIn("two outputs have the name", said)

    def test_colour(self):
        for mode in ("RGB", "P", "LA", "I"):
            page = self.put_image(f"{mode}.png", self.image(mode))
            with Image.open(page) as given:
                words = f"its pixels are not 8-bit grey but {given.mode}; convert it first"
            self.assertEqual(self.refused(page), f"{page}: cannot be cleaned: {words}\n")

    def test_transparent_pixels(self):
        page = self.put_image("page.png", self.image(), transparency=9)
        words = "cannot be cleaned: it has transparent pixels; put it on white first"
        self.assertEqual(self.refused(page), f"{page}: {words}\n")

    def test_several_images(self):
        page = self.put_image("page.tif", self.image(), save_all=True, append_images=[self.image()])
        words = "cannot be cleaned: it has more behind its first image, which would be lost; split it first"
        self.assertEqual(self.refused(page), f"{page}: {words}\n")

    def test_a_damaged_image(self):
        file = io.BytesIO()
        self.image().save(file, "PNG")
        # The last bytes are checksums and an end mark, behind all the pixels.
        for length in range(0, len(file.getvalue()) - 40, 3):
            page = self.put("page.png", file.getvalue()[:length])
            self.assertRegex(self.refused(page), f"^{page}: (cannot be read: .+|refused 15 at 0: .+)\n$")

    def test_what_pillow_does_not_know_goes_to_the_proved_reader(self):
        for content in (b"", b"not an image", b"\x89PNG", b"P4 1 1\n\0"):
            said = self.refused(self.put("page", content))
            self.assertIn(": refused 15 at ", said)
            self.assertNotIn("Pillow", said)

    def test_a_page_too_large(self):
        page = self.put_image("page.png", Image.new("L", (8193, 1)))
        self.assertTrue(self.refused(page).startswith(f"{page}: refused 10 at 0: "))

    def test_no_warnings(self):
        page = self.put_image("page.png", self.image())
        before = "import PIL.Image; PIL.Image.MAX_IMAGE_PIXELS = 300"
        self.assertEqual(self.run_apart("close", page, "-o", "out.png", *ALONG, before=before), (0, b"", ""))

    def test_through_pipes(self):
        file = io.BytesIO()
        self.image().save(file, "TIFF")
        self.assertEqual(self.run_apart("close", "-", "-o", "-", *ALONG, given=file.getvalue()), (0, CLEAN, ""))


if __name__ == "__main__":
    unittest.main()
