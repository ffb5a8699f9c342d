"""Filters one page in the middle of a tray and prints what the page program prints for it: `done W` and the rows, or
`refused N at P`; a refusal's sentence goes to standard error. Standard input is the page program's: width, height
and ticket length, two bytes each, big-endian, then the ticket, then the pixels row by row."""

import pathlib
import sys

sys.path.insert(0, str(pathlib.Path(__file__).parents[2] / "python"))
import sotrugla

# Where the page stands in both trays: neither at their start nor without padding.
OFFSET, PADDING = 100, 7
# A byte that no page may depend on.
NEIGHBOUR = b"\xa5"


def main():
    data = sys.stdin.buffer.read()
    width, height, size = (int.from_bytes(data[at : at + 2], "big") for at in (0, 2, 4))
    ticket, pixels = data[6 : 6 + size], data[6 + size :]
    if len(data) != 6 + size + width * height:
        sys.exit("bad input")
    page = sotrugla.Page(offset=OFFSET, width=width, height=height, stride=width + PADDING)
    source = bytearray(NEIGHBOUR * (OFFSET + height * page.stride))
    output = bytearray(source)
    rows = [OFFSET + row * page.stride for row in range(height)]
    for row, at in enumerate(rows):
        source[at : at + width] = pixels[row * width : (row + 1) * width]
    try:
        work = sotrugla.run(ticket, page, source, sotrugla.Spot(offset=OFFSET, stride=page.stride), output)
    except sotrugla.Refused as refused:
        print(f"refused {refused.refusal} at {refused.place}")
        print(refused.sentence, file=sys.stderr)
        return
    print(f"done {work}")
    for at in rows:
        print(*output[at : at + width])


main()
