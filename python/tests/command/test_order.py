"""Tickets from options, ready tickets, and orders that are refused before any page is opened."""

import unittest

from sotrugla import CLOSE, CONNECTED, DILATE, ERODE, OPEN, PERIODIC, Ticket, read_ticket, run_pgm

from .support import ALONG, CLEAN, PAGE, TICKET, CommandCase


class Made(CommandCase):
    def made(self, *words, operation="open"):
        """The ticket that options make, as it is kept; the page is that of the same ticket."""
        page, out, kept = self.put("page"), self.at("out"), self.at("ticket")
        status, said = self.run_here(operation, page, "-o", out, "--write-ticket", kept, *words)
        self.assertEqual((status, said), (0, ""))
        ticket = (self.folder / "ticket").read_bytes()
        self.assertEqual((self.folder / "out").read_bytes(), run_pgm(ticket, PAGE).file)
        return read_ticket(ticket)

    def test_operations(self):
        for word, operation in (("erode", ERODE), ("dilate", DILATE), ("open", OPEN), ("close", CLOSE)):
            ticket = Ticket(operation, CONNECTED, dx=5, dy=3, length=4, origin=2)
            self.assertEqual(self.made(*ALONG, operation=word), ticket)

    def test_origins(self):
        for words, origin in (((), 2), (("--origin", "centre"), 2), (("--origin", "0"), 0), (("--origin", "3"), 3)):
            self.assertEqual(self.made(*ALONG, *words), Ticket(OPEN, CONNECTED, dx=5, dy=3, length=4, origin=origin))
        for length, middle in ((1, 0), (2, 1), (3, 1), (5, 2)):
            self.assertEqual(self.made("--along", "1,0", "--length", str(length)).origin, middle)

    def test_phase(self):
        self.assertEqual(self.made(*ALONG, "--phase", "4").phase, 4)

    def test_periodic(self):
        ticket = Ticket(OPEN, PERIODIC, dx=2, dy=2, length=3, origin=1)
        self.assertEqual(self.made("--along", "2,2", "--length", "3", "--periodic"), ticket)

    def test_boxes(self):
        ticket = Ticket(OPEN, CONNECTED, dx=5, dy=3, length=4, origin=2)
        ticket.hide(left=1, top=2, width=3, height=4).hide(left=0, top=0, width=23, height=1)
        self.assertEqual(self.made(*ALONG, "--hide", "1,2,3,4", "--hide", "0,0,23,1"), ticket)


class Refusals(CommandCase):
    def refused(self, *words):
        """What is said of options whose ticket is refused; no file was written, and none but a missing one read."""
        status, said = self.run_here("close", self.at("missing"), "-o", self.at("out/"), *words)
        self.assertEqual(status, 2, said)
        self.assertEqual(self.names(), [])
        return said

    def test_of_the_options(self):
        cases = [
            (("--along", "2,2", "--length", "3"), "refused 6 at 8: "),
            (("--along", "5,3", "--length", "0"), "refused 7 at 15: "),
            (("--along", "5,3", "--length", "8193"), "refused 7 at 15: "),
            (("--along", "5,3", "--length", "3", "--origin", "3"), "refused 8 at 20: "),
            (("--along", "5,3", "--length", "3", "--phase", "5"), "refused 9 at 25: "),
            ((*ALONG, *["--hide", "0,0,1,1"] * 65), "refused 5 at 734: "),
        ]
        for words, wanted in cases:
            said = self.refused(*words, "--write-ticket", self.at("ticket"))
            self.assertTrue(said.startswith(wanted), said)
            self.assertEqual(said.count("\n"), 1)

    def test_numbers_without_a_place(self):
        for words in (("--along", "40000,1", "--length", "3"), ("--along", "1,0", "--length", "70000")):
            self.assertIn("error:", self.refused(*words))
        self.assertIn("error:", self.refused(*ALONG, "--hide", "70000,0,1,1"))

    def test_words_that_are_no_numbers(self):
        for words in (
            ("--along", "5,3", "--length", "-3"),
            ("--along", "5,3", "--length", "x"),
            (*ALONG, "--origin", "center"),
            (*ALONG, "--hide", "1,2,3"),
            (*ALONG, "--hide", "1,2,3,x"),
            (*ALONG, "--phase", "1.5"),
            (*ALONG, "--jobs", "0"),
        ):
            self.assertIn("error: argument", self.refused(*words))

    def test_options_cut_short(self):
        self.assertIn("unrecognized arguments: --len 4", self.refused("--along", "5,3", "--len", "4"))

    def test_options_left_out(self):
        for words in ((), ALONG[:2], ALONG[2:], ("--hide", "1,2,3,4")):
            self.assertIn("give --along and --length, or --ticket", self.refused(*words))


class Ready(CommandCase):
    def test_round_trip(self):
        page, kept = self.put("page"), self.at("ticket")
        self.assertEqual(self.run_here("close", page, "-o", self.at("a"), *ALONG, "--write-ticket", kept)[0], 0)
        self.assertEqual((self.folder / "ticket").read_bytes(), TICKET.encode())
        self.assertEqual(self.run_here("close", page, "-o", self.at("b"), "--ticket", kept), (0, ""))
        self.assertEqual((self.folder / "b").read_bytes(), CLEAN)

    def test_not_with_options_that_make_one(self):
        page, ticket = self.put("page"), self.put("ticket", TICKET.encode())
        for words in (
            ALONG[:2], ALONG[2:], ("--origin", "0"), ("--periodic",), ("--phase", "0"), ("--hide", "1,2,3,4")
        ):  # fmt: skip
            status, said = self.run_here("close", page, "-o", self.at("out"), "--ticket", ticket, *words)
            self.assertEqual(status, 2)
            self.assertIn(f"--ticket orders everything; leave out {words[0]}\n", said)
        self.assertEqual(self.names(), ["page", "ticket"])

    def test_another_operation(self):
        page, ticket = self.put("page"), self.put("ticket", TICKET.encode())
        status, said = self.run_here("open", page, "-o", self.at("out"), "--ticket", ticket)
        self.assertEqual(status, 2)
        self.assertIn(f"{ticket} orders close, not open", said)
        self.assertEqual(self.names(), ["page", "ticket"])

    def test_a_refused_one(self):
        page, ticket = self.put("page"), self.put("ticket", TICKET.encode()[:-1])
        status, said = self.run_here("close", page, "-o", self.at("out"), "--ticket", ticket)
        self.assertEqual(status, 1)
        self.assertTrue(said.startswith(f"{ticket}: refused 1 at 25: "), said)
        self.assertEqual(self.names(), ["page", "ticket"])

    def test_no_file(self):
        page, ticket = self.put("page"), self.at("none")
        wanted = 1, f"{ticket}: cannot be read: No such file or directory\n"
        self.assertEqual(self.run_here("close", page, "-o", self.at("out"), "--ticket", ticket), wanted)

    def test_no_folder_for_the_ticket(self):
        page, kept = self.put("page"), self.at("none/ticket")
        wanted = 1, f"{kept}: cannot be written: No such file or directory\n"
        self.assertEqual(self.run_here("close", page, "-o", self.at("a"), *ALONG, "--write-ticket", kept), wanted)
        self.assertEqual(self.names(), ["page"])


if __name__ == "__main__":
    unittest.main()
