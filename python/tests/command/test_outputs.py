"""Where pages go, and that none is lost on its way."""

import os
import subprocess
import unittest
from unittest import mock

from .support import ALONG, CLEAN, PAGE, CommandCase


class Named(CommandCase):
    def finished(self, *words):
        self.assertEqual(self.run_here("close", *words, *ALONG), (0, ""))

    def test_one_page_to_a_file(self):
        self.finished(self.put("page.pgm"), "-o", self.at("clean.pgm"))
        self.assertEqual((self.folder / "clean.pgm").read_bytes(), CLEAN)
        self.assertEqual(self.names(), ["clean.pgm", "page.pgm"])

    def test_an_output_that_exists_is_replaced(self):
        self.put("clean", b"old")
        self.finished(self.put("page"), "-o", self.at("clean"))
        self.assertEqual((self.folder / "clean").read_bytes(), CLEAN)

    def test_names_without_a_known_ending_are_p5(self):
        for name in ("clean", "clean.scan", "clean.PGM", ".pgm"):
            self.finished(self.put("page"), "-o", self.at(name))
            self.assertEqual((self.folder / name).read_bytes(), CLEAN)

    def test_one_page_to_a_folder(self):
        os.mkdir(self.at("there"))
        for out in ("there", "there/", "made/", "made/deeper/"):
            self.finished(self.put("in/page.pgm"), "-o", self.at(out))
            self.assertEqual((self.folder / out / "page.pgm").read_bytes(), CLEAN)

    def test_several_pages_keep_their_names(self):
        pages = [self.put("one/a.pgm"), self.put("other/b.pgm"), self.put("c")]
        self.finished(*pages, "-o", self.at("out"))
        self.assertEqual(self.names("out"), ["a.pgm", "b.pgm", "c"])
        for name in self.names("out"):
            self.assertEqual((self.folder / "out" / name).read_bytes(), CLEAN)

    def test_a_link_is_replaced_and_not_followed(self):
        os.symlink(self.put("another's", b"old"), self.at("link"))
        self.finished(self.put("page"), "-o", self.at("link"))
        self.assertFalse(os.path.islink(self.at("link")))
        self.assertEqual((self.folder / "link").read_bytes(), CLEAN)
        self.assertEqual((self.folder / "another's").read_bytes(), b"old")

    def test_what_standard_output_was_given_before_stays(self):
        for mode in ("wb", "ab"):
            with open(self.at("log"), mode) as log:
                log.write(b"before")
                log.flush()
                status, _, said = self.run_apart("close", self.put("page"), "-o", "/dev/stdout", *ALONG, stdout=log)
                self.assertEqual((status, said), (0, ""))
            self.assertTrue((self.folder / "log").read_bytes().endswith(b"before" + CLEAN), mode)
        self.assertEqual((self.folder / "log").read_bytes(), 2 * (b"before" + CLEAN))

    def test_a_device_stays_one(self):
        os.mkfifo(self.at("pipe"))
        with subprocess.Popen(["cat", self.at("pipe")], stdout=subprocess.PIPE) as reader:
            self.finished(self.put("page"), "-o", self.at("pipe"))
            self.assertEqual(reader.stdout.read(), CLEAN)
        self.assertFalse(os.path.isfile(self.at("pipe")))

    def test_the_mode_of_a_new_file(self):
        before = os.umask(0o027)
        self.addCleanup(os.umask, before)
        self.finished(self.put("page"), "-o", self.at("clean"), "--write-ticket", self.at("ticket"))
        for name in ("clean", "ticket"):
            self.assertEqual(os.stat(self.at(name)).st_mode & 0o777, 0o640)

    def test_the_mode_of_a_private_page(self):
        """A new output is as private as its page; one that is replaced stays as it is."""
        page = self.put("page")
        os.chmod(page, 0o600)
        self.finished(page, "-o", self.at("new"))
        self.assertEqual(os.stat(self.at("new")).st_mode & 0o777, 0o600)
        os.chmod(self.put("old"), 0o664)
        self.finished(page, "-o", self.at("old"))
        self.assertEqual(os.stat(self.at("old")).st_mode & 0o777, 0o664)

    def test_the_longest_name(self):
        name = "ä" * 127
        self.finished(self.put(name), "-o", self.at("out/"))
        self.assertEqual(self.names("out"), [name])


class Lost(CommandCase):
    """Usage errors before anything is done."""

    def setUp(self):
        super().setUp()
        self.page = self.put("page")

    def misused(self, *words, sentence):
        before = self.names()
        status, said = self.run_here("close", *words, *ALONG)
        self.assertEqual(status, 2)
        self.assertIn(f"sotrugla close: error: {sentence}\n", said)
        self.assertEqual(self.names(), before)
        self.assertEqual((self.folder / "page").read_bytes(), PAGE)

    def test_two_pages_of_one_name(self):
        out, other = self.at("out"), self.put("other/page")
        self.misused(self.page, other, "-o", out, sentence=f"two outputs have the name {out}/page")
        self.misused(self.page, self.page, "-o", out, sentence=f"two outputs have the name {out}/page")

    def test_an_input_replaced(self):
        os.symlink(self.page, self.at("link"))
        os.link(self.page, self.at("same"))
        os.symlink(self.folder, self.at("around"))
        for name in ("page", "link", "same", "around/page"):
            out = self.at(name)
            self.misused(self.page, "-o", out, sentence=f"{out} is an input, and the output would be written over it")
        for out in (str(self.folder), self.at("around")):
            sentence = f"{out}/page is an input, and the output would be written over it"
            self.misused(self.put("more/other"), self.page, "-o", out, sentence=sentence)

    def test_standard_input_twice(self):
        sentence = "standard input can be read only once"
        self.misused("-", "--ticket", "-", "-o", self.at("out"), sentence=sentence)

    def test_standard_input_replaced(self):
        with open(self.page, "rb") as given:
            status, _, said = self.run_apart("close", "-", "-o", self.page, *ALONG, stdin=given, given=None)
        self.assertEqual(status, 2)
        self.assertIn(f"{self.page} is an input, and the output would be written over it", said)

    def test_a_ticket_that_replaces_or_is_replaced(self):
        out = self.at("out")
        sentence = f"{self.page} is an input, and the output would be written over it"
        self.misused(self.page, "-o", out, "--write-ticket", self.page, sentence=sentence)
        self.misused(self.page, "-o", out, "--write-ticket", out, sentence=f"two outputs have the name {out}")
        ticket = self.put("ticket")
        sentence = f"{ticket} is an input, and the output would be written over it"
        self.misused(self.page, "-o", ticket, "--ticket", ticket, sentence=sentence)

    def test_several_pages_without_a_folder(self):
        other = self.put("other")
        sentence = "several pages need a folder, not standard output"
        self.misused(self.page, other, "-o", "-", sentence=sentence)
        third = self.put("third")
        self.misused(self.page, other, "-o", third, sentence=f"several pages need a folder, and {third} is none")

    def test_standard_input_to_a_folder(self):
        sentence = "standard input has no name to keep in a folder"
        self.misused("-", "-o", self.at("out/"), sentence=sentence)
        self.misused(self.page, "-", "-o", self.at("out"), sentence=sentence)

    def test_a_jpeg(self):
        for name in ("out.jpg", "out.JPEG"):
            out = self.at(name)
            sentence = f"{out}: JPEG changes pixels, and a hidden one would not stay white; take .png or .tif"
            self.misused(self.page, "-o", out, sentence=sentence)

    def test_other_endings(self):
        for name in ("out.gif", "out.pbm", "OUT.WEBP"):
            out = self.at(name)
            self.misused(self.page, "-o", out, sentence=f"{out}: no page is written so; take .pgm, .png, .tif or .bmp")

    def test_a_folder_that_looks_like_a_page(self):
        out = self.at("out.pgm")
        sentence = f"several pages need a folder; for one of the name {out} type {out}/"
        self.misused(self.page, self.put("more/other"), "-o", out, sentence=sentence)

    def test_a_read_only_output(self):
        out = self.put("out", b"old")
        with mock.patch("os.access", return_value=False):  # Nothing is read-only for root.
            status, said = self.run_here("close", self.page, "-o", out, *ALONG)
        self.assertEqual((status, said), (1, f"{self.page}: cannot be written: Permission denied ({out})\n"))
        self.assertEqual((self.folder / "out").read_bytes(), b"old")

    def test_no_output(self):
        self.misused(self.page, sentence="the following arguments are required: -o")

    def test_no_such_word(self):
        for words in ([], ["clean"], ["--along", "5,3"]):
            self.assertEqual(self.run_here(*words)[0], 2)

    def test_no_folder_can_be_made(self):
        status, said = self.run_here("close", self.put("other"), "-o", self.at("page/deeper/"), *ALONG)
        self.assertEqual((status, said), (1, f"{self.at('page/deeper/')}: cannot be made: Not a directory\n"))


if __name__ == "__main__":
    unittest.main()
