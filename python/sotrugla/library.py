"""The shared library: found, loaded, its functions declared, its version held to the package's.

It is the file that SOTRUGLA_LIBRARY names, else libsotrugla.so in this package, else the one that ./build wrote in a
checkout, else the one that the system finds.
"""

from __future__ import annotations

import ctypes
import os
import pathlib
import typing

from . import __version__
from .stack import see_stack

_HERE = pathlib.Path(__file__).resolve().parent
_FILES = [_HERE / "libsotrugla.so", _HERE.parents[1] / "target" / "dist" / "libsotrugla.so"]


def _numbers(*names: str) -> list[tuple[str, type]]:
    """The fields of a struct of 64-bit numbers."""
    return [(name, ctypes.c_uint64) for name in names]


class Outcome(ctypes.Structure):
    _fields_ = _numbers("refusal", "place", "work")


class _Pgm(ctypes.Structure):
    _fields_ = _numbers("refusal", "place", "width", "height", "maximum", "start")


class _Written(ctypes.Structure):
    _fields_ = _numbers("refusal", "place", "work", "length")


class _Reason(ctypes.Structure):
    _fields_ = _numbers(
        "refusal", "place", "kind", "box", "phase", "through_column", "through_row", "from_column", "from_row"
    )


_BUFFER = [ctypes.c_void_p, ctypes.c_size_t]
# By the functions' names: what they answer, and what they take.
_FUNCTIONS: dict[str, tuple[typing.Any, list[typing.Any]]] = {
    "sotrugla_run": (Outcome, _BUFFER + [ctypes.c_size_t] * 6 + _BUFFER * 3),
    "sotrugla_run_tray": (Outcome, [ctypes.c_size_t] + _BUFFER * 6),
    "sotrugla_scratch_needed": (ctypes.c_size_t, [ctypes.c_size_t] * 2),
    "sotrugla_read_ticket": (Outcome, _BUFFER + [ctypes.POINTER(ctypes.c_int64), ctypes.c_size_t]),
    "sotrugla_is_hidden": (ctypes.c_uint64, _BUFFER + [ctypes.c_size_t] * 2),
    "sotrugla_read_pgm": (_Pgm, _BUFFER),
    "sotrugla_run_pgm": (_Written, _BUFFER * 4),
    "sotrugla_why": (_Reason, _BUFFER + [ctypes.c_size_t] * 6 + _BUFFER + [ctypes.c_size_t] * 4),
}


def _loaded() -> tuple[str, ctypes.CDLL]:
    """The file's name, as far as it is known, and the library."""
    named = os.environ.get("SOTRUGLA_LIBRARY")
    there = next((str(file) for file in _FILES if file.exists()), None)
    file = named or there or "libsotrugla.so"
    try:
        return file, ctypes.CDLL(file)
    except OSError as error:
        reason = str(error)
    if named:
        raise ImportError(f"SOTRUGLA_LIBRARY names {named}, which cannot be loaded: {reason}")
    if there:
        raise ImportError(f"{there} cannot be loaded: {reason}")
    looked = ", ".join(map(str, _FILES))
    raise ImportError(f"no libsotrugla.so: run ./build first. Looked for: {looked}, and the system's ({reason})")


def _see_version(file: str, library: ctypes.CDLL) -> None:
    """Functions and their numbers may differ from version to version."""
    if not hasattr(library, "sotrugla_version"):
        raise ImportError(f"{file} is the library of a version before 0.3.0, and this package is version {__version__}")
    library.sotrugla_version.restype = ctypes.c_uint64
    number = library.sotrugla_version()
    version = f"{number // 1000000}.{number // 1000 % 1000}.{number % 1000}"
    if version != __version__:
        raise ImportError(f"{file} is the library of version {version}, and this package is version {__version__}")


def _declared() -> ctypes.CDLL:
    file, library = _loaded()
    _see_version(file, library)
    for name, (answer, arguments) in _FUNCTIONS.items():
        function = getattr(library, name)
        function.restype, function.argtypes = answer, arguments
    return library


_LIBRARY = _declared()


def answer(function: str, *arguments: typing.Any) -> typing.Any:
    """What the library's function of this name answers. Other threads run on meanwhile."""
    see_stack()
    return getattr(_LIBRARY, function)(*arguments)
