"""The shared library: where it is looked for, and what is said where it is missing or of another version."""

import ctypes.util
import os
import pathlib
import shutil
import subprocess
import sys
import tempfile
import unittest

from sotrugla import library

from .jobs import PYTHON

BUILT = pathlib.Path(library._LIBRARY._name)
SHOW = "from sotrugla import library; print(library._LIBRARY._name)"


class Search(unittest.TestCase):
    """On a copy of the package in an empty checkout."""

    def setUp(self):
        folder = tempfile.TemporaryDirectory()
        self.addCleanup(folder.cleanup)
        self.checkout = pathlib.Path(folder.name).resolve()
        self.package = self.checkout / "python" / "sotrugla"
        shutil.copytree(PYTHON / "sotrugla", self.package, ignore=shutil.ignore_patterns("*.so"))

    def put(self, name):
        """The library at another place."""
        file = self.checkout / name
        file.parent.mkdir(parents=True, exist_ok=True)
        shutil.copyfile(BUILT, file)
        return str(file)

    def imported(self, **environment):
        """What is printed of the library that was loaded, or the last line of what went wrong."""
        kept = {name: text for name, text in os.environ.items() if name not in ("SOTRUGLA_LIBRARY", "LD_LIBRARY_PATH")}
        run = subprocess.run(
            [sys.executable, "-B", "-c", SHOW],
            cwd=self.checkout / "python",
            env={**kept, **environment},
            stdout=subprocess.PIPE,
            stderr=subprocess.PIPE,
            text=True,
        )
        return (run.stdout or run.stderr).splitlines()[-1]

    @unittest.skipIf(ctypes.util.find_library("sotrugla"), "the library is installed on this system")
    def test_nowhere(self):
        files = f"{self.package}/libsotrugla.so, {self.checkout}/target/dist/libsotrugla.so"
        words = f"ImportError: no libsotrugla.so: run ./build first. Looked for: {files}, and the system's ("
        self.assertEqual(self.imported()[: len(words)], words)

    def test_order(self):
        system = self.put("system/libsotrugla.so")
        self.assertEqual(self.imported(LD_LIBRARY_PATH=os.path.dirname(system)), "libsotrugla.so")
        built = self.put("target/dist/libsotrugla.so")
        self.assertEqual(self.imported(LD_LIBRARY_PATH=os.path.dirname(system)), built)
        inside = self.put("python/sotrugla/libsotrugla.so")
        self.assertEqual(self.imported(), inside)
        self.assertEqual(self.imported(SOTRUGLA_LIBRARY=system), system)

    def test_named_and_not_there(self):
        self.put("target/dist/libsotrugla.so")
        found = self.imported(SOTRUGLA_LIBRARY="/nowhere.so")
        self.assertRegex(found, "^ImportError: SOTRUGLA_LIBRARY names /nowhere.so, which cannot be loaded: ")

    def test_damaged(self):
        inside = self.put("python/sotrugla/libsotrugla.so")
        pathlib.Path(inside).write_bytes(b"no library")
        self.assertRegex(self.imported(), f"^ImportError: {inside} cannot be loaded: ")

    def test_of_another_version(self):
        inside = self.put("python/sotrugla/libsotrugla.so")
        start = self.package / "__init__.py"
        start.write_text(start.read_text().replace('__version__ = "0.6.0"', '__version__ = "12.34.56"'))
        words = f"ImportError: {inside} is the library of version 0.6.0, and this package is version 12.34.56"
        self.assertEqual(self.imported(), words)

    def test_without_a_version(self):
        other = ctypes.util.find_library("c")
        words = f"ImportError: {other} is the library of a version before 0.3.0, and this package is version 0.6.0"
        self.assertEqual(self.imported(SOTRUGLA_LIBRARY=other), words)
