"""What the tests of the command share: a folder for each test, pages in it, and the command in this process or as one
of its own."""

import contextlib
import io
import os
import pathlib
import signal
import subprocess
import sys
import tempfile
import unittest

import sotrugla
from sotrugla.command import main

from ..jobs import greys

PACKAGES = pathlib.Path(sotrugla.__file__).resolve().parents[1]

ALONG = ("--along", "5,3", "--length", "4")
TICKET = sotrugla.Ticket(sotrugla.CLOSE, sotrugla.CONNECTED, dx=5, dy=3, length=4, origin=2)

SIDES = (23, 17)
PAGE = b"P5\n%d\n%d\n255\n" % SIDES + greys(*SIDES)
CLEAN = sotrugla.run_pgm(TICKET, PAGE).file


def modules_hidden(*names):
    """Lines that make modules look as if they were not installed."""
    return "import sys\n" + "".join(f"sys.modules[{name!r}] = None\n" for name in names)


class CommandCase(unittest.TestCase):
    def setUp(self):
        folder = tempfile.TemporaryDirectory()
        self.addCleanup(folder.cleanup)
        self.folder = pathlib.Path(folder.name)
        # A run in the background ignores interrupts, and would hand that on to the command.
        self.addCleanup(signal.signal, signal.SIGINT, signal.signal(signal.SIGINT, signal.default_int_handler))

    def at(self, name):
        """The path of a name in the test's folder, as the command takes it."""
        return f"{self.folder}/{name}"

    def put(self, name, content=PAGE):
        path = self.folder / name
        path.parent.mkdir(exist_ok=True)
        path.write_bytes(content)
        return str(path)

    def names(self, folder=""):
        return sorted(os.listdir(self.folder / folder))

    def run_here(self, *words):
        """The exit status, and what is said on standard error, of the command in this process."""
        with contextlib.redirect_stderr(io.StringIO()) as said:
            status = main(list(words))
        return status, said.getvalue()

    def start(self, *words, before="", **streams):
        """The command as a process of its own, in the test's folder, behind some lines of Python if there are any."""
        called = ["-m", "sotrugla"]
        if before:
            called = ["-c", f"{before}\nimport sys\nfrom sotrugla.command import main\nsys.exit(main())"]
        given = dict(os.environ, PYTHONPATH=str(PACKAGES), COLUMNS="80")
        words = [sys.executable, "-B", *called, *words]
        started = subprocess.Popen(words, env=given, cwd=self.folder, **streams)
        self.addCleanup(started.wait)
        self.addCleanup(started.kill)
        for stream in filter(None, (started.stdin, started.stdout, started.stderr)):
            self.addCleanup(stream.close)
        return started

    def run_apart(self, *words, given=b"", **more):
        """The exit status, and what is written to standard output and standard error."""
        pipes = dict.fromkeys(("stdin", "stdout", "stderr"), subprocess.PIPE)
        process = self.start(*words, **{**pipes, **more})
        written, said = process.communicate(given)
        return process.returncode, written, said.decode()
