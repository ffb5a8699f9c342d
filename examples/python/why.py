"""Says of each pixel of a page why it comes out so: a line for each, row by row, or `refused N at P`; a refusal's
sentence goes to standard error. Standard input is the page program's: width, height and ticket length, two bytes each,
big-endian, then the ticket, then the pixels row by row."""

import pathlib
import sys

sys.path.insert(0, str(pathlib.Path(__file__).parents[2] / "python"))
import sotrugla


def main():
    data = sys.stdin.buffer.read()
    width, height, size = (int.from_bytes(data[at : at + 2], "big") for at in (0, 2, 4))
    ticket, pixels = data[6 : 6 + size], data[6 + size :]
    if len(data) != 6 + size + width * height:
        sys.exit("bad input")
    page = sotrugla.Page(offset=0, width=width, height=height, stride=width)
    try:
        # A refused job is refused for its first pixel, even where it has none.
        for row in range(max(height, 1)):
            for column in range(max(width, 1)):
                print(sotrugla.why(ticket, page, pixels, column=column, row=row))
    except sotrugla.Refused as refused:
        print(f"refused {refused.refusal} at {refused.place}")
        print(refused.sentence, file=sys.stderr)


main()
