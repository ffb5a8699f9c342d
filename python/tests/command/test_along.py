"""Vectors and angles, as they are typed."""

import math
import unittest
from fractions import Fraction

import sotrugla
from sotrugla.command.along import along, nearest_vector

from .support import CommandCase

FRACTIONS = {Fraction(above, below) for below in range(1, 33) for above in range(-below, below + 1)}


def searched(degrees):
    """The vector by a search over all fractions."""
    turned = degrees % 180
    steep = 45 < turned < 135
    slope = Fraction(math.tan(math.radians(90 - turned if steep else turned)))
    nearest = min(FRACTIONS, key=lambda fraction: abs(fraction - slope))
    vector = (nearest.denominator, nearest.numerator)
    return vector[::-1] if steep and abs(nearest) < 1 else vector


class Angles(unittest.TestCase):
    def test_nearest_of_all_fractions(self):
        for whole in range(-15, 195):
            degrees = whole + Fraction(1, 7)
            self.assertEqual(nearest_vector(degrees), searched(degrees), degrees)

    def test_every_vector_is_allowed_and_near(self):
        # Between level and 1/32 no angle is farther from both than from 1/64.
        farthest = math.degrees(math.atan(1 / 64)) + 1e-9
        for tenths in range(-2000, 4000, 3):
            dx, dy = nearest_vector(Fraction(tenths, 10))
            sotrugla.read_ticket(sotrugla.Ticket(sotrugla.OPEN, sotrugla.CONNECTED, dx=dx, dy=dy, length=2).encode())
            apart = (math.degrees(math.atan2(dy, dx)) - tenths / 10 + 90) % 180 - 90
            self.assertLess(abs(apart), farthest, tenths)

    def test_known_ones(self):
        known = {
            "0deg": (1, 0), "31deg": (5, 3), "-31deg": (5, -3), "45deg": (1, 1), "90deg": (0, 1), "135deg": (1, -1),
            "149deg": (5, -3), "180deg": (1, 0), "211deg": (5, 3), "-90deg": (0, 1), "59deg": (3, 5),
            "121deg": (-3, 5), "134.9deg": (1, -1), "45.1deg": (1, 1), "30.5deg": (17, 10), "+31deg": (5, 3),
        }  # fmt: skip
        for typed, vector in known.items():
            self.assertEqual(along(typed)[:2], vector, typed)

    def test_what_is_said(self):
        self.assertEqual(along("31deg").note, "along 31deg: the vector 5,3 (30.96deg)")
        self.assertEqual(along("-31deg").note, "along -31deg: the vector 5,-3 (-30.96deg)")
        self.assertEqual(along("149deg").note, "along 149deg: the vector 5,-3 (149.04deg)")
        self.assertEqual(along("135deg").note, "along 135deg: the vector 1,-1 (135.00deg)")

    def test_vectors(self):
        self.assertEqual(along("5,3"), (5, 3, ""))
        self.assertEqual(along("-1,2"), (-1, 2, ""))
        self.assertEqual(along("+1,-0"), (1, 0, ""))

    def test_other_words(self):
        for typed in ("", "5", "5,", "5,3,1", "5.0,3", "deg", "31", "31 deg", "1e1deg", "nandeg", "31degrees", "٣deg"):
            self.assertIsNone(along(typed), typed)


class Typed(CommandCase):
    def ordered(self, *words):
        """The vector of the ticket, and what was said."""
        status, said = self.run_here(
            "open", self.put("page"), "-o", self.at("out"), "--length", "3", "--write-ticket", self.at("ticket"), *words
        )
        self.assertEqual(status, 0, said)
        ticket = sotrugla.read_ticket((self.folder / "ticket").read_bytes())
        return (ticket.dx, ticket.dy), said

    def test_a_vector_is_taken_without_a_word(self):
        self.assertEqual(self.ordered("--along", "5,3"), ((5, 3), ""))

    def test_words_that_look_like_options(self):
        self.assertEqual(self.ordered("--along", "-1,2"), ((-1, 2), ""))
        self.assertEqual(self.ordered("--along=-1,2"), ((-1, 2), ""))
        self.assertEqual(self.ordered("--along", "-31deg")[0], (5, -3))

    def test_an_angle_is_told_on_standard_error(self):
        self.assertEqual(self.ordered("--along", "31deg")[1], "along 31deg: the vector 5,3 (30.96deg)\n")

    def test_neither(self):
        status, said = self.run_here("open", self.put("page"), "-o", self.at("out"), "--length", "3", "--along", "31")
        self.assertEqual(status, 2)
        self.assertIn("31 is neither a vector like 5,3 nor an angle like 31deg", said)
        self.assertEqual(self.names(), ["page"])
        self.assertIsNone(along("9" * 400 + "deg"))


if __name__ == "__main__":
    unittest.main()
