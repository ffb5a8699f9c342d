"""The sources: Python 3.9 reads them, their examples are right, and the version is one."""

import ast
import doctest
import importlib
import re
import unittest

import sotrugla

from .jobs import PYTHON, ROOT

VERSIONS = {
    "python/pyproject.toml": r'^version = "(.*)"$',
    "include/sotrugla.h": r'^#define SOTRUGLA_VERSION "(.*)"$',
    "host/Cargo.toml": r'^version = "(.*)"$',
}


def load_tests(loader, tests, pattern):
    """The examples of the package's modules know its public names."""
    modules = [sotrugla, *(importlib.import_module(f"sotrugla.{name}") for name in subjects())]
    for module in modules:
        tests.addTests(doctest.DocTestSuite(module, extraglobs=vars(sotrugla)))
    return tests


def subjects():
    """The package's own modules: __main__ runs, and the command has tests of its own."""
    return [file.stem for file in (PYTHON / "sotrugla").glob("*.py") if not file.stem.startswith("__")]


class Sources(unittest.TestCase):
    def test_python_3_9_reads_them(self):
        files = [*PYTHON.rglob("*.py"), *(ROOT / "examples" / "python").glob("*.py"), ROOT / "docs" / "form.py"]
        self.assertIn(PYTHON / "sotrugla" / "tickets.py", files)
        for file in files:
            ast.parse(file.read_text(), str(file), feature_version=(3, 9))

    def test_one_version(self):
        for file, line in VERSIONS.items():
            (found,) = re.findall(line, (ROOT / file).read_text(), re.MULTILINE)
            self.assertEqual(found, sotrugla.__version__, file)

    def test_public_names(self):
        self.assertEqual([name for name in sotrugla.__all__ if not hasattr(sotrugla, name)], [])
