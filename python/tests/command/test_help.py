"""Help that fits a screen, and the versions."""

import os
import subprocess
import unittest
from unittest import mock

import sotrugla

from .support import CommandCase


class Help(CommandCase):
    def test_fits_a_screen_with_examples(self):
        for word in ("", "erode", "dilate", "open", "close", "tray", "why"):
            words = [word, "--help"] if word else ["-h"]
            status, written, said = self.run_apart(*words)
            lines = written.decode().splitlines()
            self.assertEqual((status, said), (0, ""))
            self.assertLessEqual(len(lines), 24, words)
            self.assertLessEqual(max(map(len, lines)), 80, words)
            self.assertIn("examples:", lines)

    def test_help_of_tray(self):
        """It says how long a tray gets that is not there yet."""
        written = self.run_apart("tray", "--help")[1].decode()
        told = "one that exists is written in place, a new one is made as long as TRAY --json"
        self.assertIn(told, " ".join(written.split()))

    def test_help_of_show(self):
        status, written, said = self.run_apart("show", "--help")
        self.assertEqual((status, said), (0, ""))
        self.assertTrue(written.startswith(b"usage: sotrugla show [-h] TICKET\n"))

    def test_versions(self):
        version = sotrugla.__version__
        written = f"sotrugla {version} (library {version})\n".encode()
        self.assertEqual(self.run_apart("--version"), (0, written, ""))

    def test_a_reader_that_is_gone(self):
        for buffered in ("", "1"):
            with self.subTest(PYTHONUNBUFFERED=buffered), mock.patch.dict(os.environ, PYTHONUNBUFFERED=buffered):
                process = self.start("--help", stdout=subprocess.PIPE, stderr=subprocess.PIPE)
                process.stdout.close()
                self.assertEqual(process.stderr.read(), b"")


if __name__ == "__main__":
    unittest.main()
