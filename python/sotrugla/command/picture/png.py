"""A drawing as a PNG file, by Pillow."""

from __future__ import annotations

import functools
import io
from typing import Any, Sequence

from .drawing import PAPER, Cells, Drawing, Part, Point, Shape, Strokes, Words

# Drawn at twice the size and made smaller then, so that slanted lines have no steps.
_TWICE = 2
_GRID = 128
_ANCHORS = {"start": "ls", "middle": "ms", "end": "rs"}
# The first that is found is taken.
_FONTS = {False: ("DejaVuSans.ttf", "LiberationSans-Regular.ttf", "Arial.ttf", "Helvetica.ttc"),
          True: ("DejaVuSans-Bold.ttf", "LiberationSans-Bold.ttf", "Arial Bold.ttf", "Helvetica.ttc")}  # fmt: skip


def written(drawing: Drawing) -> bytes:
    from PIL import Image, ImageDraw

    image = Image.new("RGB", (drawing.width * _TWICE, drawing.height * _TWICE), PAPER)
    pen = ImageDraw.Draw(image)
    for part in drawing.parts:
        _put(image, pen, part)
    file = io.BytesIO()
    image.resize((drawing.width, drawing.height), Image.BOX).save(file, "PNG", optimize=True)
    return file.getvalue()


def _put(image: Any, pen: Any, part: Part) -> None:
    if isinstance(part, Cells):
        _put_cells(image, pen, part)
    elif isinstance(part, Strokes):
        for line in part.lines:
            pen.line(_twice(line), part.colour, round(part.width * _TWICE), joint="curve")
    elif isinstance(part, Shape):
        pen.polygon(_twice(part.points), part.colour)
    else:
        _put_words(image, pen, part)


def _put_cells(image: Any, pen: Any, cells: Cells) -> None:
    from PIL import Image

    width, height, side = len(cells.rows[0]), len(cells.rows), cells.side * _TWICE
    left, top = cells.left * _TWICE, cells.top * _TWICE
    greys = Image.frombytes("L", (width, height), b"".join(cells.rows))
    image.paste(greys.resize((width * side, height * side), Image.NEAREST), (left, top))
    for x in range(left, left + width * side + 1, side):
        pen.line((x, top, x, top + height * side), (_GRID, _GRID, _GRID), 1)
    for y in range(top, top + height * side + 1, side):
        pen.line((left, y, left + width * side, y), (_GRID, _GRID, _GRID), 1)


def _twice(points: Sequence[Point]) -> Sequence[Point]:
    return [(x * _TWICE, y * _TWICE) for x, y in points]


def _put_words(image: Any, pen: Any, words: Words) -> None:
    font, (left, base) = _font(words.size * _TWICE, words.bold), _twice([(words.left, words.base)])[0]
    if hasattr(font, "getmetrics"):
        pen.text((left, base), words.text, words.colour, font, anchor=_ANCHORS[words.anchor])
    elif words.text:
        _put_dotted(image, words, font, left, base)


def _put_dotted(image: Any, words: Words, font: Any, left: float, base: float) -> None:
    """By Pillow's own letters of dots, which have one size and know no anchor."""
    from PIL import Image, ImageDraw

    _, _, width, height = ImageDraw.Draw(Image.new("L", (1, 1))).textbbox((0, 0), words.text, font)
    letters = Image.new("L", (width, height))
    ImageDraw.Draw(letters).text((0, 0), words.text, 255, font)
    scale = words.size * _TWICE / height
    letters = letters.resize((round(width * scale), words.size * _TWICE), Image.NEAREST)
    start = {"start": 0.0, "middle": 0.5, "end": 1.0}[words.anchor] * letters.width
    image.paste(words.colour, (round(left - start), round(base) - letters.height), letters)


@functools.lru_cache(maxsize=None)
def _font(size: int, bold: bool) -> Any:
    from PIL import ImageFont

    for name in _FONTS[bold]:
        try:
            return ImageFont.truetype(name, size)
        except OSError:
            continue
    try:
        return ImageFont.load_default(size)
    except TypeError:  # Before Pillow 10.1 it has one size.
        return ImageFont.load_default()
