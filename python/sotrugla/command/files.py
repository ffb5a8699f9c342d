"""Files read whole and written whole. The name `-` is standard input or standard output."""

from __future__ import annotations

import contextlib
import errno
import os
import re
import secrets
from typing import BinaryIO, Callable, Iterator

from .faults import Fault, reason

STANDARD = "-"

# Names of what the command was started with.
_HANDED_ON = re.compile("/dev/(stdout|stderr|fd/.*)|/proc/.*")

# Reading and writing for all, of which the user's umask takes some away.
_NEW = 0o666

# Reading and writing for the owner.
_OWNED = 0o600

# A page's name may be as long as its folder allows; the hidden name beside it takes only so much of it.
_KEPT_OF_A_NAME = 40

# What systems answer where a file can have but one name.
_NO_LINKS = (errno.EMLINK, errno.ENOSYS, errno.ENOTSUP, errno.EOPNOTSUPP, errno.EPERM)


def read(name: str) -> bytes:
    try:
        return content(name)
    except OSError as error:
        raise Fault(name, f"cannot be read: {reason(error)}") from error


def content(name: str) -> bytes:
    """As read, but raises OSError."""
    with open(0 if name == STANDARD else name, "rb", closefd=name != STANDARD) as file:
        return file.read()


def write(name: str, content: bytes, like: str = STANDARD) -> None:
    """Writes a file, or replaces it, so that its name never stands for half of it. A new one may be read and written by
    those who may read and write the one that it is like, as far as the user's umask lets them. Raises OSError."""
    if name == STANDARD:
        with open(1, "wb", closefd=False) as file:
            file.write(content)
    elif _takes(name):
        # Behind what was written before, as /dev/stdout may be a file.
        with open(name, "ab") as file:
            file.write(content)
    else:
        with replaced(name, like) as file:
            file.write(content)


def put(name: str, content: bytes) -> None:
    """As write, but raises Fault, unless nobody reads standard output any more."""
    try:
        write(name, content)
    except BrokenPipeError:
        raise
    except OSError as error:
        raise Fault(name, f"cannot be written: {reason(error)}") from error


def _takes(name: str) -> bool:
    """Whether it takes what is written, as a device and a pipe do: a file in its place would be a loss to others."""
    apart = os.path.exists(name) and not os.path.isfile(name)
    return apart or _HANDED_ON.fullmatch(os.path.abspath(name)) is not None


@contextlib.contextmanager
def replaced(name: str, like: str) -> Iterator[BinaryIO]:
    """A file to be written, which takes the place of one of its name."""
    path = os.path.abspath(name)
    there = os.path.isfile(path) and not os.path.islink(path)
    if there and not os.access(path, os.W_OK):
        raise PermissionError(errno.EACCES, os.strerror(errno.EACCES))
    mode = _NEW if like == STANDARD else os.stat(like).st_mode & _NEW
    with _part(path, mode, os.replace) as file:
        if there:
            os.fchmod(file.fileno(), os.stat(path).st_mode & 0o777)
        yield file


@contextlib.contextmanager
def made(name: str, like: str) -> Iterator[BinaryIO]:
    """A new file to be written, and written again by its owner, even where the one that it is like is only to be read.
    What has its name by then stays there, and FileExistsError is raised."""
    with _part(os.path.abspath(name), os.stat(like).st_mode & _NEW | _OWNED, _name_new) as file:
        yield file


@contextlib.contextmanager
def _part(path: str, mode: int, give_name: Callable[[str, str], None]) -> Iterator[BinaryIO]:
    """A file under a hidden name in the same folder, which is given its own when all of it is on the disk. An error and
    an interrupt leave nothing of it."""
    folder, name = os.path.split(path)
    part = os.path.join(folder, f".{name[:_KEPT_OF_A_NAME]}.{secrets.token_hex(4)}.part")
    descriptor = None
    try:
        # Who maps a file to write it must be let to read it.
        descriptor = os.open(part, os.O_RDWR | os.O_CREAT | os.O_EXCL, mode)
        with open(descriptor, "wb") as file:
            yield file
            file.flush()
            os.fsync(file.fileno())
        give_name(part, path)
    except BaseException as error:
        # An interrupt may come before its descriptor is known, or when it has its name already. What cannot be made is
        # not there, or is another's.
        if descriptor is not None or not isinstance(error, OSError):
            with contextlib.suppress(FileNotFoundError):
                os.remove(part)
        raise


def _name_new(part: str, path: str) -> None:
    """Unlike a renaming, a link never takes the place of a file."""
    try:
        os.link(part, path)
    except FileExistsError:
        raise _appeared() from None
    except OSError as error:
        if error.errno not in _NO_LINKS:
            raise
        # This leaves open the moment between the look and the renaming: a file that appears just then is lost.
        if os.path.lexists(path):
            raise _appeared() from None
        os.rename(part, path)
    else:
        os.remove(part)


def _appeared() -> FileExistsError:
    return FileExistsError(errno.EEXIST, "a file of this name appeared meanwhile, and nothing of it was changed")
