"""The wheel: what is in it, that it is the same each time, and that pip installs it without a network."""

import base64
import hashlib
import importlib.util
import os
import pathlib
import subprocess
import sys
import tempfile
import unittest
import zipfile

import packing
from sotrugla import __version__, library

from .jobs import PYTHON

BUILD = "import sys, packing; print(packing.build_wheel(sys.argv[1]))"
INFORMATION = f"sotrugla-{__version__}.dist-info"


def run(*command, cwd=PYTHON, **environment):
    """Python may keep bytecode, as it does for who installs. A folder with the package in it is not looked in."""
    kept = {name: text for name, text in os.environ.items() if not name.startswith("PYTHON")}
    kept["SOTRUGLA_LIBRARY"] = os.path.abspath(library._LIBRARY._name)
    environment = {**kept, **environment}
    return subprocess.run(command, cwd=cwd, env=environment, stdout=subprocess.PIPE, stderr=subprocess.PIPE, text=True)


def sources():
    """Everything in the source tree."""
    return set(PYTHON.rglob("*"))


class Folder(unittest.TestCase):
    """An empty one for each test, which leaves nothing in the source tree."""

    def setUp(self):
        folder = tempfile.TemporaryDirectory()
        self.addCleanup(folder.cleanup)
        self.folder = pathlib.Path(folder.name)
        before = sources()
        self.addCleanup(lambda: self.assertEqual(sources() - before, set()))


class Wheel(Folder):
    def built(self, name="wheel"):
        folder = self.folder / name
        folder.mkdir()
        made = run(sys.executable, "-c", BUILD, folder)
        self.assertEqual(made.stderr, "")
        return folder / made.stdout.strip()

    def test_files(self):
        wheel = self.built()
        self.assertRegex(wheel.name, rf"^sotrugla-{__version__}-py3-none-linux_\w+\.whl$")
        modules = {str(file.relative_to(PYTHON)) for file in PYTHON.glob("sotrugla/**/*.py")}
        others = {f"{INFORMATION}/{name}" for name in ("METADATA", "WHEEL", "entry_points.txt", "RECORD")}
        with zipfile.ZipFile(wheel) as archive:
            names = archive.namelist()
            self.assertEqual(archive.read("sotrugla/libsotrugla.so"), pathlib.Path(library._LIBRARY._name).read_bytes())
        self.assertEqual(len(names), len(set(names)))
        self.assertEqual(set(names), modules | others | {"sotrugla/libsotrugla.so", "sotrugla/py.typed"})

    def test_record(self):
        with zipfile.ZipFile(self.built()) as archive:
            lines = archive.read(f"{INFORMATION}/RECORD").decode().splitlines()
            for line in lines[:-1]:
                name, digest, size = line.split(",")
                content = archive.read(name)
                wanted = base64.urlsafe_b64encode(hashlib.sha256(content).digest()).decode().replace("=", "")
                self.assertEqual((digest, int(size)), (f"sha256={wanted}", len(content)))
            self.assertEqual(lines[-1], f"{INFORMATION}/RECORD,,")
            self.assertEqual([line.split(",")[0] for line in lines], archive.namelist())

    def test_what_is_said_of_it(self):
        with zipfile.ZipFile(self.built()) as archive:
            metadata = archive.read(f"{INFORMATION}/METADATA").decode()
            wheel = archive.read(f"{INFORMATION}/WHEEL").decode().splitlines()
            entries = archive.read(f"{INFORMATION}/entry_points.txt").decode()
        needed = 'Requires-Dist: Pillow>=8; extra == "images"'
        for line in (f"Version: {__version__}", "Requires-Python: >=3.9", needed):
            self.assertIn(f"\n{line}\n", metadata)
        self.assertIn("Root-Is-Purelib: false", wheel)
        self.assertEqual(entries, "[console_scripts]\nsotrugla = sotrugla.command:main\n")

    def test_same_each_time(self):
        first = self.built("first")
        self.assertEqual(first.read_bytes(), self.built("second").read_bytes())
        with zipfile.ZipFile(first) as archive:
            self.assertEqual({entry.date_time for entry in archive.infolist()}, {(1980, 1, 1, 0, 0, 0)})

    def test_library_that_is_not_there(self):
        made = run(sys.executable, "-c", BUILD, self.folder, SOTRUGLA_LIBRARY="/nowhere.so")
        self.assertEqual(made.returncode, 1)
        self.assertRegex(made.stderr, r"^/nowhere.so is not there: run ./build first \(.* SOTRUGLA_LIBRARY\)\n$")

    def test_library_that_cannot_be_loaded(self):
        made = run(sys.executable, "-c", BUILD, self.folder, SOTRUGLA_LIBRARY=str(PYTHON / "packing.py"))
        self.assertRegex(made.stderr, "^ImportError: SOTRUGLA_LIBRARY names .*: run ./build again\n$")
        self.assertEqual((made.returncode, [*self.folder.iterdir()]), (1, []))

    @unittest.skipUnless(importlib.util.find_spec("tomllib"), "this Python has no TOML reader to compare with")
    def test_read_as_toml(self):
        text = (PYTHON / "pyproject.toml").read_text()
        wanted = importlib.import_module("tomllib").loads(text)
        project = {**wanted["project"]}
        extras, scripts = project.pop("optional-dependencies"), project.pop("scripts")
        sections = {"project": project, "project.optional-dependencies": extras, "project.scripts": scripts}
        self.assertEqual(packing._sections(), {"build-system": wanted["build-system"], **sections})

    def test_no_source_archive(self):
        made = run(sys.executable, "-B", "-c", "import packing; packing.build_sdist('.')")
        self.assertIn("packing.UnsupportedOperation: the package is installed from a checkout", made.stderr)


@unittest.skipUnless(importlib.util.find_spec("ensurepip"), "this Python makes no environments with pip")
class Install(Folder):
    def test_without_a_network(self):
        """Into a fresh environment, used from another folder, and taken out again."""
        subprocess.run([sys.executable, "-m", "venv", self.folder / "fresh"], check=True)
        python = self.folder / "fresh" / "bin" / "python"
        pip = [python, "-m", "pip", "--disable-pip-version-check", "-q"]
        made = run(*pip, "install", "--no-index", PYTHON, cwd=self.folder)
        self.assertEqual(made.returncode, 0, made.stderr)
        code = "from sotrugla import *; print(run_pgm(Ticket.opening(along=(1, 0), length=2), b'P5 1 1 99 3').file)"
        used = run(python, "-c", code, cwd=self.folder, SOTRUGLA_LIBRARY="")
        self.assertEqual((used.stdout, used.stderr), ("b'P5\\n1\\n1\\n99\\n3'\n", ""))
        self.assertTrue((python.parent / "sotrugla").exists())
        self.assertEqual(run(*pip, "uninstall", "-y", "sotrugla").returncode, 0)
        self.assertEqual([file for file in (self.folder / "fresh").rglob("*sotrugla*")], [])
