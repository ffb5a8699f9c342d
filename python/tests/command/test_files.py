"""One page through standard input and output, and files that are never half written."""

import os
import signal
import subprocess
import time
import unittest
from unittest import mock

from sotrugla.command import batch, files

from .support import ALONG, CLEAN, PAGE, CommandCase


class Standard(CommandCase):
    def test_a_pipe(self):
        self.assertEqual(self.run_apart("close", "-", "-o", "-", *ALONG, given=PAGE), (0, CLEAN, ""))

    def test_a_refused_page_leaves_standard_output_empty(self):
        status, written, said = self.run_apart("close", "-", "-o", "-", *ALONG, given=PAGE[:-1])
        self.assertEqual((status, written), (1, b""))
        self.assertTrue(said.startswith(f"-: refused 17 at {len(PAGE) - 1}: "), said)

    def test_a_reader_that_is_gone(self):
        reader, writer = os.pipe()
        os.close(reader)
        process = self.start("close", self.put("page"), "-o", "-", *ALONG, stdout=writer, stderr=subprocess.PIPE)
        os.close(writer)
        self.assertEqual(process.stderr.read(), b"")
        self.assertEqual(process.wait(), 1)

    def test_standard_error_that_is_closed(self):
        """What would be said there does not get into the page, and several pages are finished."""
        closed = "import os, sys; os.close(2); sys.stderr = None"
        words = ("close", "-", "-o", "-", "--along", "31deg", "--length", "4")
        self.assertEqual(self.run_apart(*words, given=PAGE, before=closed), (0, CLEAN, ""))
        words = ("close", self.put("a"), self.put("b", PAGE[:-1]), self.put("c"), "-o", "out", *ALONG)
        self.assertEqual(self.run_apart(*words, before=closed), (1, b"", ""))
        self.assertEqual(self.names("out"), ["a", "c"])

    def test_a_full_disk(self):
        with open("/dev/full", "wb") as full:
            status, _, said = self.run_apart("close", "-", "-o", "-", *ALONG, given=PAGE, stdout=full)
        self.assertEqual((status, said), (1, "-: cannot be written: No space left on device (-)\n"))

    def test_an_interrupt_while_it_waits(self):
        words = ("close", "-", "-o", "-", "--along", "31deg", "--length", "4")
        process = self.start(*words, stdin=subprocess.PIPE, stdout=subprocess.PIPE, stderr=subprocess.PIPE)
        self.assertEqual(process.stderr.readline(), b"along 31deg: the vector 5,3 (30.96deg)\n")
        time.sleep(0.2)
        began = time.monotonic()
        process.send_signal(signal.SIGINT)
        self.assertEqual((process.stderr.read(), process.wait()), (b"", 130))
        self.assertLess(time.monotonic() - began, batch._PATIENCE)


class Whole(CommandCase):
    def test_on_the_disk_before_its_name(self):
        done, sync, replace = [], os.fsync, os.replace
        with mock.patch("os.fsync", lambda file: done.append("fsync") or sync(file)):
            with mock.patch("os.replace", lambda *names: done.append(names) or replace(*names)):
                files.write(self.at("page"), PAGE)
        self.assertEqual(done[0], "fsync")
        (part, name), folder = done[1], self.folder
        self.assertRegex(part, rf"^{folder}/\.page\.[0-9a-f]+\.part$")
        self.assertEqual(name, f"{folder}/page")
        self.assertEqual((self.folder / "page").read_bytes(), PAGE)

    def test_a_new_one_is_on_the_disk_before_its_name(self):
        done, sync, link, folder = [], os.fsync, os.link, self.folder
        with mock.patch("os.fsync", lambda file: done.append("fsync") or sync(file)):
            with mock.patch("os.link", lambda *names: done.append(names) or link(*names)):
                with files.made(self.at("tray"), like=self.put("page")) as file:
                    file.write(PAGE)
        self.assertEqual(done[0], "fsync")
        self.assertRegex(done[1][0], rf"^{folder}/\.tray\.[0-9a-f]+\.part$")
        self.assertEqual(done[1][1:], (f"{folder}/tray",))
        self.assertEqual((self.folder / "tray").read_bytes(), PAGE)
        self.assertEqual(self.names(), ["page", "tray"])

    def test_no_part_is_left_by_an_error(self):
        self.put("page", b"old")
        for step in ("os.fsync", "os.replace"):
            for error in (OSError(28, "No space left on device"), KeyboardInterrupt()):
                with mock.patch(step, side_effect=error), self.assertRaises(type(error)):
                    files.write(self.at("page"), PAGE)
                self.assertEqual(self.names(), ["page"])
                self.assertEqual((self.folder / "page").read_bytes(), b"old")

    def test_an_interrupt_just_behind_the_opening(self):
        """One that comes during a call is heard when the call is done, and its answer is lost."""
        known = os.open

        def opened(*given):
            os.close(known(*given))
            raise KeyboardInterrupt

        with mock.patch("os.open", opened), self.assertRaises(KeyboardInterrupt):
            files.write(self.at("page"), PAGE)
        self.assertEqual(self.names(), [])

    def test_an_interrupt_just_behind_the_renaming(self):
        known = os.replace

        def replace(*names):
            known(*names)
            raise KeyboardInterrupt

        with mock.patch("os.replace", replace), self.assertRaises(KeyboardInterrupt):
            files.write(self.at("page"), PAGE)
        self.assertEqual((self.folder / "page").read_bytes(), PAGE)

    def test_another_part_is_left_alone(self):
        with mock.patch("secrets.token_hex", lambda size: "same"):
            self.put(".page.same.part", b"another's")
            with self.assertRaises(FileExistsError):
                files.write(self.at("page"), PAGE)
        self.assertEqual((self.folder / ".page.same.part").read_bytes(), b"another's")


if __name__ == "__main__":
    unittest.main()
