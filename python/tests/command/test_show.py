"""Tickets in words."""

import unittest

from sotrugla import CLOSE, CONNECTED, DILATE, ERODE, OPEN, PERIODIC, Ticket
from sotrugla.command.show import in_words

from .support import TICKET, CommandCase


class Words(unittest.TestCase):
    def test_a_whole_ticket(self):
        ticket = Ticket(CLOSE, CONNECTED, dx=5, dy=3, length=51, origin=25, phase=2)
        ticket.hide(left=60, top=30, width=200, height=40).hide(left=1, top=2, width=3, height=4)
        self.assertEqual(
            in_words(ticket),
            "operation  close: dark strokes shorter than the segment go, longer ones stay\n"
            "line       connected, along 5,3 (30.96deg)\n"
            "phase      2\n"
            "length     51 steps\n"
            "origin     step 25 of 0 to 50, its middle\n"
            "hidden     left 60, top 30, width 200, height 40\n"
            "hidden     left 1, top 2, width 3, height 4\n",
        )

    def test_the_shortest(self):
        self.assertEqual(
            in_words(Ticket(ERODE, PERIODIC, dx=-2, dy=4, length=1)),
            "operation  erode: dark strokes grow\n"
            "line       periodic, along -2,4 (116.57deg)\n"
            "phase      0\n"
            "length     1 step\n"
            "origin     step 0 of 0 to 0, its middle\n"
            "hidden     nothing\n",
        )

    def test_operations(self):
        for operation, word in ((ERODE, "erode"), (DILATE, "dilate"), (OPEN, "open"), (CLOSE, "close")):
            words = in_words(Ticket(operation, CONNECTED, dx=1, dy=0, length=2))
            self.assertTrue(words.startswith(f"operation  {word}: "), words)

    def test_middles(self):
        for length, middle in ((1, 0), (2, 1), (3, 1), (4, 2), (5, 2), (8192, 4096)):
            for origin in (middle - 1, middle, middle + 1):
                words = in_words(Ticket(OPEN, CONNECTED, dx=1, dy=0, length=length, origin=origin))
                self.assertEqual("its middle" in words, origin == middle, words)


class Shown(CommandCase):
    def test_a_file_and_standard_input(self):
        wanted = 0, in_words(TICKET).encode(), ""
        self.assertEqual(self.run_apart("show", self.put("ticket", TICKET.encode())), wanted)
        self.assertEqual(self.run_apart("show", "-", given=TICKET.encode()), wanted)

    def test_a_refused_ticket(self):
        path = self.put("ticket", TICKET.encode()[:20])
        status, said = self.run_here("show", path)
        self.assertEqual(status, 1)
        self.assertTrue(said.startswith(f"{path}: refused 1 at 20: the ticket ends inside a field"), said)

    def test_no_file(self):
        path = self.at("none")
        self.assertEqual(self.run_here("show", path), (1, f"{path}: cannot be read: No such file or directory\n"))

    def test_a_full_disk(self):
        with open("/dev/full", "wb") as full:
            status, _, said = self.run_apart("show", "-", given=TICKET.encode(), stdout=full)
        self.assertEqual((status, said), (1, "-: cannot be written: No space left on device\n"))


if __name__ == "__main__":
    unittest.main()
