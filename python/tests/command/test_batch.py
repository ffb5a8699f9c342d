"""Many pages: those that are refused, threads, progress on a terminal, interrupted and killed runs. tqdm, where it is
installed, may be Debian's python3-tqdm."""

import importlib.util
import os
import pty
import shutil
import signal
import subprocess
import threading
import time
import unittest
from unittest import mock

import sotrugla
from sotrugla.command import pages

from .support import ALONG, CLEAN, PAGE, TICKET, CommandCase, modules_hidden

LARGE = b"P5\n3000\n2000\n255\n" + bytes(range(250)) * 24000


class Refused(CommandCase):
    """Twenty pages, of which three are damaged."""

    damaged = {"03": (PAGE[:-1], "17"), "11": (b"P5x" + PAGE[2:], "15"), "12": (PAGE.replace(b"255", b"256"), "16")}

    def setUp(self):
        super().setUp()
        names = [f"{number:02}" for number in range(20)]
        self.pages = [self.put(f"in/{name}", self.damaged.get(name, (PAGE,))[0]) for name in names]

    def check(self, status, said):
        """Three lines; seventeen pages are right, and no other file is there."""
        self.assertEqual(status, 1)
        lines = sorted(said.splitlines())
        self.assertEqual(len(lines), 3, said)
        for line, (name, (_, refusal)) in zip(lines, self.damaged.items()):
            self.assertTrue(line.startswith(f"{self.at('in')}/{name}: refused {refusal} at "), line)
        self.assertEqual(self.names("out"), [f"{at:02}" for at in range(20) if f"{at:02}" not in self.damaged])
        for name in self.names("out"):
            self.assertEqual((self.folder / "out" / name).read_bytes(), CLEAN)

    def test_any_number_at_a_time(self):
        for jobs in ((), ("--jobs", "1"), ("--jobs", "4"), ("--jobs", "99")):
            out = self.at("out")
            self.check(*self.run_here("close", *self.pages, "-o", out, *ALONG, *jobs))
            for name in self.names("out"):
                os.remove(f"{out}/{name}")

    def shown_on_a_terminal(self, before=""):
        """What a terminal gets on standard error."""
        ours, theirs = pty.openpty()
        process = self.start("close", *self.pages, "-o", "out", *ALONG, before=before, stderr=theirs)
        os.close(theirs)
        shown = b""
        try:
            while True:
                shown += os.read(ours, 4096)
        except OSError:  # so a terminal says that nobody writes any more
            os.close(ours)
        self.assertEqual(process.wait(), 1)
        return shown.decode().replace("\r\n", "\n")

    def test_a_count_on_a_terminal(self):
        shown = self.shown_on_a_terminal(modules_hidden("tqdm"))
        self.assertTrue(shown.startswith("\r0 of 20 pages"), shown)
        self.assertTrue(shown.endswith("\r20 of 20 pages\n"), shown)
        lines = [line for line in shown.replace("\r", "\n").splitlines() if "refused" in line]
        self.check(1, "\n".join(lines))

    @unittest.skipUnless(importlib.util.find_spec("tqdm"), "tqdm is not installed")
    def test_the_bar_of_tqdm(self):
        shown = self.shown_on_a_terminal()
        self.assertIn("20/20", shown)
        self.check(1, "\n".join(line[line.index(self.at("in")) :] for line in shown.split("\n") if "refused" in line))

    def test_no_progress_elsewhere(self):
        status, written, said = self.run_apart("close", *self.pages, "-o", "out", *ALONG)
        self.assertEqual(written, b"")
        self.check(status, said)


class Others(CommandCase):
    def test_files_that_cannot_be_read_or_written(self):
        good, none, folder = self.put("good"), self.at("none"), self.at("in/folder")
        os.makedirs(folder)
        os.makedirs(self.at("out/taken"))
        status, said = self.run_here("close", good, none, folder, self.put("taken"), "-o", self.at("out"), *ALONG)
        self.assertEqual(status, 1)
        self.assertEqual(
            sorted(said.splitlines()),
            [
                f"{folder}: cannot be read: Is a directory",
                f"{none}: cannot be read: No such file or directory",
                f"{self.at('taken')}: cannot be written: Is a directory ({self.at('out/taken')})",
            ],
        )
        self.assertEqual((self.folder / "out/good").read_bytes(), CLEAN)

    def test_a_box_past_the_edge_of_one_page(self):
        wide = b"P5 30 17 255 " + bytes(30 * 17)
        status, said = self.run_here(
            "close", self.put("wide", wide), self.put("page"), "-o", self.at("out"), *ALONG, "--hide", "20,0,10,1"
        )
        self.assertEqual((status, self.names("out")), (1, ["wide"]))
        self.assertTrue(said.startswith(f"{self.at('page')}: refused 14 at 0: "), said)

    def test_a_second_image_is_not_lost(self):
        words = "cannot be cleaned: it has more behind its first image, which would be lost; split it first"
        for more in (PAGE, b"\n" + PAGE, b"x"):
            path = self.put("page", PAGE + more)
            self.assertEqual(self.run_here("close", path, "-o", self.at("out"), *ALONG), (1, f"{path}: {words}\n"))
            self.assertEqual(self.names(), ["page"])

    def test_a_last_newline_is_nothing(self):
        self.assertEqual(self.run_here("close", self.put("page", PAGE + b"\n"), "-o", self.at("out"), *ALONG), (0, ""))
        self.assertEqual((self.folder / "out").read_bytes(), CLEAN)

    def test_a_name_tells_a_terminal_nothing(self):
        path = self.at("two\nlines\x1b[2J")
        status, said = self.run_here("close", path, "-o", self.at("out"), *ALONG)
        told = self.at("two\\nlines\\x1b[2J")
        self.assertEqual((status, said), (1, f"{told}: cannot be read: No such file or directory\n"))

    def test_too_little_memory_for_one_page(self):
        one, two, known = self.put("one"), self.put("two", PAGE + b"\n"), sotrugla.run_pgm

        def run_pgm(ticket, page):
            if page == PAGE:
                raise MemoryError
            return known(ticket, page)

        with mock.patch("sotrugla.run_pgm", run_pgm):
            status, said = self.run_here("close", one, two, "-o", self.at("out"), *ALONG)
        self.assertEqual((status, self.names("out")), (1, ["two"]))
        self.assertEqual(said, f"{one}: cannot be cleaned: there is not enough memory\n")

    def test_threads_of_a_small_stack(self):
        before = "import threading; threading.stack_size(128 * 1024)"
        words = ("close", self.put("a"), self.put("b"), "-o", "out", *ALONG, "--jobs", "2")
        self.assertEqual(self.run_apart(*words, before=before), (0, b"", ""))
        self.assertEqual(self.names("out"), ["a", "b"])

    def test_as_many_threads_as_the_system_starts(self):
        known, started = threading.Thread.start, []

        def start(thread):
            if len(started) == 2:
                raise RuntimeError("can't start new thread")
            started.append(thread)
            known(thread)

        names = [self.put(f"{number:02}") for number in range(6)]
        with mock.patch.object(threading.Thread, "start", start):
            self.assertEqual(self.run_here("close", *names, "-o", self.at("out"), *ALONG, "--jobs", "4"), (0, ""))
        self.assertEqual(len(self.names("out")), 6)

    def test_no_more_pages_at_a_time_than_jobs(self):
        under_way, most, three = [], [], threading.Barrier(3)

        def clean(route, ticket):
            under_way.append(route)
            three.wait(60)
            most.append(len(under_way))
            under_way.remove(route)

        names = [self.put(f"{number:02}") for number in range(12)]
        with mock.patch.object(pages, "clean", clean):
            self.assertEqual(self.run_here("close", *names, "-o", self.at("out"), *ALONG, "--jobs", "3"), (0, ""))
        self.assertEqual((len(most), max(most)), (12, 3))


class Ended(CommandCase):
    """Runs of large pages that end before their time."""

    def started(self):
        """A run of many pages, the first of which is finished."""
        page = self.put("large", LARGE)
        names = [self.at(f"{number:03}") for number in range(200)]
        for name in names:
            os.symlink(page, name)
        process = self.start("close", *names, "-o", "out", *ALONG, "--jobs", "2", stderr=subprocess.PIPE)
        until = time.monotonic() + 60
        while time.monotonic() < until and not self.finished():
            time.sleep(0.001)
        return process

    def start_over(self):
        for name in self.names():
            (shutil.rmtree if name == "out" else os.remove)(self.at(name))

    def finished(self):
        return [name for name in self.names("out") if name[0] != "."] if os.path.isdir(self.at("out")) else []

    def check_pages(self):
        """Some pages are finished, not all, and each is whole."""
        self.assertIn(len(self.finished()), range(1, 200))
        wanted = sotrugla.run_pgm(TICKET, LARGE).file
        for name in self.finished():
            self.assertTrue((self.folder / "out" / name).read_bytes() == wanted, name)

    def test_killed(self):
        process = self.started()
        process.kill()
        self.assertEqual(process.wait(), -signal.SIGKILL)
        self.check_pages()
        for name in set(self.names("out")) - set(self.finished()):
            self.assertRegex(name, r"^\.[0-9]{3}\.[0-9a-f]+\.part$")

    def test_interrupted_or_terminated(self):
        for ended, status in ((signal.SIGINT, 130), (signal.SIGTERM, 143)):
            process = self.started()
            process.send_signal(ended)
            self.assertEqual((process.stderr.read(), process.wait()), (b"", status))
            self.check_pages()
            self.assertEqual(self.names("out"), self.finished())
            self.start_over()

    def test_interrupted_while_pages_wait(self):
        os.mkfifo(self.at("a"))
        os.mkfifo(self.at("b"))
        before = "from sotrugla.command import batch\nbatch._PATIENCE = 0.1"
        words = ("close", "a", "b", "-o", "out", "--along", "0deg", "--length", "4", "--jobs", "2")
        process = self.start(*words, before=before, stderr=subprocess.PIPE)
        self.assertEqual(process.stderr.readline(), b"along 0deg: the vector 1,0 (0.00deg)\n")
        time.sleep(0.1)
        process.send_signal(signal.SIGINT)
        self.assertEqual((process.stderr.read(), process.wait()), (b"", 130))


if __name__ == "__main__":
    unittest.main()
