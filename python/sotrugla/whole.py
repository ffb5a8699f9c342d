"""Whole numbers on their way into a ticket or a call: each is named where it has no place there."""

from __future__ import annotations

import operator
import typing


def whole(value: typing.SupportsIndex, name: str) -> int:
    """The number as Python's own: numpy's are taken, 2.0 is not."""
    try:
        return operator.index(value)
    except TypeError:
        raise TypeError(f"{name} is {value!r}, not a whole number") from None


def placed(value: typing.SupportsIndex, name: str, bits: int, signed: bool = False) -> bytes:
    """The number in a field of so many bits, big-endian."""
    number = whole(value, name)
    try:
        return number.to_bytes(bits // 8, "big", signed=signed)
    except OverflowError:
        sign = " with a sign" if signed else ""
        raise OverflowError(f"{name} is {number}, which has no place in {bits} bits{sign}") from None


def size(value: typing.SupportsIndex, name: str) -> int:
    """The number as a size of the library's: ctypes would cut it to 64 bits without a word."""
    return int.from_bytes(placed(value, name, 64), "big")
