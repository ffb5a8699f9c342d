"""The vector of a line as an operator types it: DX,DY, or an angle."""

from __future__ import annotations

import math
import re
from fractions import Fraction
from typing import NamedTuple, Optional, Tuple

# An angle's vector is the nearest slope among the fractions whose denominators are at most this.
ORDER = 32

_VECTOR = re.compile(r"([+-]?[0-9]{1,9}),([+-]?[0-9]{1,9})")
_ANGLE = re.compile(r"([+-]?[0-9]{1,9}(?:\.[0-9]{1,9})?)deg")


class Along(NamedTuple):
    """A vector, and what is said to an operator who typed an angle."""

    dx: int
    dy: int
    note: str = ""


def along(typed: str) -> Optional[Along]:
    """The vector that is typed as 5,3 or as 31deg; none for other words."""
    vector, angle = _VECTOR.fullmatch(typed), _ANGLE.fullmatch(typed)
    if vector:
        return Along(int(vector[1]), int(vector[2]))
    if angle is None:
        return None
    degrees = Fraction(angle[1])
    dx, dy = nearest_vector(degrees)
    # Told in the turn that was typed, so that both angles can be compared.
    own = angle_of(dx, dy)
    own += 180 * round((degrees - Fraction(own)) / 180)
    return Along(dx, dy, f"along {typed}: the vector {dx},{dy} ({own:.2f}deg)")


def angle_of(dx: int, dy: int) -> float:
    """From the level towards the bottom of the page, in degrees."""
    return math.degrees(math.atan2(dy, dx))


def nearest_vector(degrees: Fraction) -> Tuple[int, int]:
    """The vector for an angle: its smaller component over the larger is the nearest fraction of the order to the
    tangent of the angle from the axis that lies closer."""
    turned = degrees % 180
    steep = 45 < turned < 135
    level = turned if turned <= 45 else turned - 180
    slope = Fraction(math.tan(math.radians(90 - turned if steep else level))).limit_denominator(ORDER)
    smaller, larger = slope.numerator, slope.denominator
    # On a diagonal both components have one size, and the law takes it for shallow.
    return (smaller, larger) if steep and abs(smaller) < larger else (larger, smaller)
