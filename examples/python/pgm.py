"""Closes the page of a raw Netpbm grey file (P5) along its rows, one box of it hidden: the file is standard input, the
closed page as another such file standard output. A refusal goes to standard error as its number, place and sentence,
and the exit status is then 1."""

import pathlib
import sys

sys.path.insert(0, str(pathlib.Path(__file__).parents[2] / "python"))
import sotrugla


def main():
    ticket = sotrugla.Ticket.closing(along=(1, 0), length=5, hide=[(6, 3, 2, 1)])
    try:
        written = sotrugla.run_pgm(ticket, sys.stdin.buffer.read())
    except sotrugla.Refused as refused:
        sys.exit(f"refused {refused.refusal} at {refused.place}: {refused.sentence}")
    sys.stdout.buffer.write(written.file)


main()
