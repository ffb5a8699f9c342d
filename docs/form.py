#!/usr/bin/env python3
"""form.py [OUT]: draws a form as a scanner sees it, cleans it in two ways, and writes the three side by side to OUT,
which is docs/form.png where it is not named.

It needs the Python package, Pillow and the font DejaVu: Debian's python3-pil and fonts-dejavu-core."""

import functools
import pathlib
import random
import sys
import typing

from PIL import Image, ImageChops, ImageDraw, ImageFont

import sotrugla

WIDTH, HEIGHT = 820, 600
PAPER, INK = 242, 24
ROWS = [("Name", "Ada Rind"), ("Street", "Mill Lane 12"), ("Account", "4711 0815 23"), ("Amount", "128.40")]
ACCOUNT = sotrugla.HiddenBox(left=244, top=340, width=300, height=52)
LEVEL, FALLING, UPRIGHT, RISING = (1, 0), (1, 1), (0, 1), (1, -1)
EDGE, CAPTION = 16, 44


def font(size: int, bold: bool = False) -> ImageFont.FreeTypeFont:
    return ImageFont.truetype("DejaVuSans-Bold.ttf" if bold else "DejaVuSans.ttf", size)


def drawn_form() -> Image.Image:
    """The form as printed and filled in: a title, and labels, entries and rules in rows."""
    page = Image.new("L", (WIDTH, HEIGHT), PAPER)
    pen = ImageDraw.Draw(page)
    pen.text((40, 28), "Transfer order", INK, font(52, bold=True))
    for number, (label, entry) in enumerate(ROWS):
        base = 200 + 100 * number
        pen.text((40, base - 52), label, INK, font(38))
        pen.text((252, base - 52), entry, INK, font(38))
        pen.rectangle((240, base, WIDTH - 40, base + 2), INK)
    return page


def add_specks(page: Image.Image, number: int) -> None:
    """Dust on the glass: dark specks of up to three pixels a side, the same ones each time."""
    dust = random.Random(7)
    pen = ImageDraw.Draw(page)
    for _ in range(number):
        left, top = dust.randrange(WIDTH - 4), dust.randrange(HEIGHT - 4)
        pen.ellipse((left, top, left + dust.randrange(3), top + dust.randrange(3)), dust.randrange(20, 120))


def closed(page: Image.Image, along: typing.Tuple[int, int], length: int) -> Image.Image:
    return sotrugla.closing(page, along=along, length=length, hide=[ACCOUNT])


def without_specks(page: Image.Image) -> Image.Image:
    """The darkest of four closings: what is long enough in one of the directions stays."""
    return functools.reduce(ImageChops.darker, [closed(page, way, 4) for way in (LEVEL, FALLING, UPRIGHT, RISING)])


def side_by_side(pages: typing.List[typing.Tuple[str, Image.Image]]) -> Image.Image:
    """The pages at half their size, each under its caption."""
    width, height = WIDTH // 2, HEIGHT // 2
    sheet = Image.new("L", (len(pages) * (width + EDGE) + EDGE, height + CAPTION + EDGE), 255)
    pen = ImageDraw.Draw(sheet)
    for number, (caption, page) in enumerate(pages):
        left = EDGE + number * (width + EDGE)
        pen.text((left, 14), caption, 0, font(17))
        pen.rectangle((left - 1, CAPTION - 1, left + width, CAPTION + height), 160)
        sheet.paste(page.resize((width, height), Image.BOX), (left, CAPTION))
    return sheet


def main() -> None:
    scanned = drawn_form()
    add_specks(scanned, 600)
    pages = [
        ("as scanned", scanned),
        ("closed along rows, length 101", closed(scanned, LEVEL, 101)),
        ("darkest of four closings, length 4", without_specks(scanned)),
    ]
    here = pathlib.Path(__file__).resolve().with_name("form.png")
    side_by_side(pages).save(sys.argv[1] if sys.argv[1:] else here, optimize=True)


main()
