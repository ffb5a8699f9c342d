"""A list of jobs on one tray: both formats of a list, the table and JSON, trays that are made and trays in use, lists
that are wrong, and runs that end before their time."""

import contextlib
import csv
import errno
import io
import json
import os
import signal
import subprocess
import time
import unittest
from unittest import mock

import sotrugla
from sotrugla import Page, Spot
from sotrugla.command import files

from ..jobs import greys
from .support import CommandCase

COLUMNS = ["page", "ticket", "width", "height", "source_offset", "source_stride", "output_offset", "output_stride"]
CLOSING = sotrugla.Ticket.closing(along=(1, 0), length=3, hide=[(0, 0, 2, 1)]).encode()
OPENING = sotrugla.Ticket.opening(along=(1, 1), length=2).encode()
TICKETS = {"close.ticket": CLOSING, "open.ticket": OPENING, "bad.ticket": b""}
TRAY = greys(40, 10)


def job(page="one", ticket="close.ticket", **changes):
    """A job on a page of 5 by 4 pixels."""
    placed = dict(width=5, height=4, source_offset=3, source_stride=9, output_offset=3, output_stride=9)
    return {"page": page, "ticket": ticket, **placed, **changes}


# The second is refused for its width, the third for its ticket; the fourth is written over the end of the first.
JOBS = [
    job(),
    job("letter 2", width=0),
    job("three", "bad.ticket"),
    job("vier", "open.ticket", source_offset=200, output_offset=7),
]

TABLE = """\
job  page      answer           sentence                                                               work
  1  one       done                                                                                      {:2}
  2  letter 2  refused 10 at 0  the width is not 1 to 8192                                                0
  3  three     refused 1 at 0   the ticket ends inside a field, or before one of its first six fields     0
  4  vier      done                                                                                      {:2}
2 of 4 pages finished
"""


def as_json(jobs):
    return json.dumps(jobs).encode()


def as_csv(jobs, columns=COLUMNS):
    written = io.StringIO(newline="")
    lines = csv.DictWriter(written, columns)
    lines.writeheader()
    lines.writerows(jobs)
    return written.getvalue().encode()


def failure(number):
    """What a system answers, by its number."""
    return OSError(number, os.strerror(number))


def single(jobs, output):
    """The output tray, and the work of each job, as single calls in list order leave them."""
    works = []
    for listed in jobs:
        page = Page(listed["source_offset"], listed["width"], listed["height"], listed["source_stride"])
        spot = Spot(listed["output_offset"], listed["output_stride"])
        try:
            works.append(sotrugla.run(TICKETS[listed["ticket"]], page, TRAY, spot, output))
        except sotrugla.Refused:
            works.append(0)
    return bytes(output), works


class TrayCase(CommandCase):
    def setUp(self):
        super().setUp()
        for name, content in TICKETS.items():
            self.put(name, content)
        self.put("tray", TRAY)
        self.before = self.names()

    def content(self, name):
        return (self.folder / name).read_bytes()

    def ran(self, jobs, *words, status=0, out="out"):
        """What is printed of the jobs of a list."""
        name = self.put("list", as_csv(jobs))
        ended = self.run_apart("tray", name, "tray", "-o", out, *words)
        self.assertEqual((ended[0], ended[2]), (status, ""))
        os.remove(name)
        return ended[1].decode()


class Lists(TrayCase):
    def test_both_formats_from_files_and_standard_input(self):
        wanted, (first, _, _, last) = single(JOBS, bytearray(len(TRAY)))
        table = TABLE.format(first, last).encode()
        lists = [as_json(JOBS), b" \n\t" + as_json(JOBS), as_csv(JOBS), as_csv(JOBS, COLUMNS[::-1])]
        lists += [b"\xef\xbb\xbf" + content for content in lists]
        lists += [as_csv(JOBS).replace(b"\r\n", b"\n\n"), as_csv(JOBS).replace(b",", b", ")]
        for content in lists:
            for name, given in ((self.put("list", content), b""), ("-", content)):
                self.assertEqual(self.run_apart("tray", name, "tray", "-o", "out", given=given), (1, table, ""))
                self.assertEqual(self.content("out"), wanted)
                os.remove(self.at("out"))

    def test_tickets_are_found_from_the_list(self):
        """Also one of the name -, which is not standard input there, and each is read once."""
        self.put("night/close.ticket", OPENING)
        self.put("night/-", CLOSING)
        name = self.put("night/list", as_json([job(), job(ticket="-"), job(), job(ticket="../open.ticket")]))
        known = files.content
        with mock.patch.object(files, "content", side_effect=known) as opened, mock.patch.object(files, "put"):
            self.assertEqual(self.run_here("tray", name, self.at("tray"), "-o", self.at("out")), (0, ""))
        read = [call.args[0] for call in opened.call_args_list]
        folder = self.at("night")
        self.assertEqual(read, [name, f"{folder}/close.ticket", f"{folder}/-", f"{folder}/../open.ticket"])
        self.put("-", CLOSING)
        self.put("list", as_json([job(ticket="-")]))
        self.assertEqual(self.run_apart("tray", "list", "tray", "-o", "out")[::2], (0, ""))

    def test_a_later_job_stands_where_places_overlap(self):
        jobs = [job(), job(source_offset=200, output_offset=12), job(source_offset=100, output_offset=5)]
        for order in (jobs, jobs[::-1]):
            self.ran(order)
            self.assertEqual(self.content("out"), single(order, bytearray(len(TRAY)))[0])
            os.remove(self.at("out"))

    def test_no_job(self):
        head = "job  page  answer  sentence  work\n"
        self.assertEqual(self.ran([]), f"{head}0 of 0 pages finished\n")
        self.assertEqual(self.content("out"), bytes(len(TRAY)))
        empty = self.run_apart("tray", "-", "tray", "-o", "out", "--json", given=b"[]")
        self.assertEqual(empty, (0, b'{"refusal": 0, "place": 0, "jobs": []}\n', ""))

    def test_the_most_jobs(self):
        table = self.ran([job(str(number)) for number in range(256)])
        self.assertEqual(len(table.splitlines()), 258)
        self.assertTrue(table.endswith("\n256 of 256 pages finished\n"), table)


class Answers(TrayCase):
    def test_json(self):
        _, works = single(JOBS, bytearray(len(TRAY)))
        told = json.loads(self.ran(JOBS, "--json", status=1))
        self.assertEqual((told["refusal"], told["place"], len(told["jobs"])), (0, 0, 4))
        for number, (found, listed) in enumerate(zip(told["jobs"], JOBS)):
            self.assertEqual((found["job"], found["page"]), (number + 1, listed["page"]))
            self.assertEqual(found["work"], works[number])
        found = [(told["jobs"][at]["refusal"], told["jobs"][at]["place"]) for at in range(4)]
        self.assertEqual(found, [(0, 0), (10, 0), (1, 0), (0, 0)])
        sentences = [listed["sentence"] for listed in told["jobs"]]
        self.assertEqual(sentences, ["", "the width is not 1 to 8192", sotrugla.SENTENCES[1], ""])

    def test_names_that_would_tell_a_terminal_something(self):
        names = ["two\nlines\x1b[2J", "näher", "na\u0308her", "頁", "\u202egnorw"]
        lines = self.ran([job(name) for name in names]).splitlines()
        shown = [line.strip().split("  ")[1] for line in lines[1:-1]]
        self.assertEqual(shown, ["two\\nlines\\x1b[2J", "näher", "na\u0308her", "頁", "\\u202egnorw"])
        # A letter that takes two columns, and one that takes none, move nothing.
        starts = [line.index("done") for line in lines[1:-1]]
        self.assertEqual(starts, [starts[0], starts[0], starts[0] + 1, starts[0] - 1, starts[0]])
        told = json.loads(self.ran([job(name) for name in names], "--json"))
        self.assertEqual([listed["page"] for listed in told["jobs"]], names)

    def test_a_reader_that_is_gone(self):
        reader, writer = os.pipe()
        os.close(reader)
        name = self.put("list", as_csv(JOBS))
        process = self.start("tray", name, "tray", "-o", "out", stdout=writer, stderr=subprocess.PIPE)
        os.close(writer)
        self.assertEqual((process.stderr.read(), process.wait()), (b"", 1))
        self.assertEqual(self.content("out"), single(JOBS, bytearray(len(TRAY)))[0])

    def test_more_than_256_jobs(self):
        name = self.put("list", as_json([job()] * 257))
        self.put("used", b"in use")
        said = f"{name}: refused 18 at 0: the list has more than 256 jobs\n"
        for out in ("out", "used"):
            self.assertEqual(self.run_apart("tray", name, "tray", "-o", out), (1, b"", said))
            told = b'{"refusal": 18, "place": 0, "jobs": []}\n'
            self.assertEqual(self.run_apart("tray", name, "tray", "-o", out, "--json"), (1, told, said))
        self.assertEqual(self.content("used"), b"in use")
        self.assertEqual(self.names(), sorted([*self.before, "list", "used"]))

    def test_more_than_256_jobs_are_not_looked_at(self):
        """Not their tickets, nor the trays: 18 is answered before."""
        for ticket in ("none", "a\0b", "\ud800"):
            name = self.put("list", as_json([job()] * 299 + [job(ticket=ticket)]))
            wanted = 1, f"{name}: refused 18 at 0: the list has more than 256 jobs\n"
            for tray, out in (("tray", "out"), ("none", "out"), ("tray", "close.ticket")):
                with mock.patch.object(files, "content", side_effect=files.content) as opened:
                    self.assertEqual(self.run_here("tray", name, self.at(tray), "-o", self.at(out)), wanted)
                self.assertEqual([call.args[0] for call in opened.call_args_list], [name])
        self.assertEqual(self.content("close.ticket"), CLOSING)
        self.assertEqual(self.names(), sorted([*self.before, "list"]))


class Trays(TrayCase):
    def test_a_tray_in_use_is_written_in_place(self):
        """Nothing of it but the pages, and a page that does not fit it is refused."""
        for length in (len(TRAY), len(TRAY) + 1000, 31):
            used = bytearray([7] * length)
            self.put("out", used)
            wanted, works = single(JOBS, used)
            kept = os.stat(self.at("out")).st_ino
            table = self.ran(JOBS, status=1)
            self.assertIn(f"\n{sum(map(bool, works))} of 4 pages finished\n", table)
            self.assertEqual(self.content("out"), wanted)
            self.assertEqual(os.stat(self.at("out")).st_ino, kept)
        self.assertIn("refused 12 at 0", table)

    def test_a_link_to_a_tray_in_use_stays_one(self):
        os.symlink(self.put("used", bytes(len(TRAY))), self.at("out"))
        self.ran(JOBS, status=1)
        self.assertTrue(os.path.islink(self.at("out")))
        self.assertEqual(self.content("used"), single(JOBS, bytearray(len(TRAY)))[0])

    def test_a_new_tray_is_as_private_as_its_source(self):
        os.chmod(self.at("tray"), 0o600)
        self.ran(JOBS, status=1)
        self.assertEqual(os.stat(self.at("out")).st_mode & 0o777, 0o600)
        self.assertEqual(self.names(), sorted([*self.before, "out"]))

    def test_a_new_tray_can_be_written_again(self):
        """Its owner may write it where the source is only to be read; the bits of all others are the source's."""
        self.addCleanup(os.umask, os.umask(0o022))
        for source, made in ((0o444, 0o644), (0o440, 0o640), (0o400, 0o600), (0o755, 0o644)):
            os.chmod(self.at("tray"), source)
            self.ran(JOBS, status=1)
            self.assertEqual(oct(os.stat(self.at("out")).st_mode & 0o777), oct(made))
            self.ran(JOBS, status=1)
            self.assertEqual(oct(os.stat(self.at("out")).st_mode & 0o777), oct(made))
            os.remove(self.at("out"))

    def test_an_empty_tray(self):
        self.put("tray", b"")
        self.assertIn("refused 11 at 0", self.ran([job()], status=1))
        self.assertEqual(self.content("out"), b"")

    def test_trays_are_not_read_whole(self):
        """Four GiB, and of memory for data less than a sixteenth of that."""
        far = 2**32
        with open(self.at("tray"), "wb") as tray:
            tray.truncate(far)
            tray.seek(far - 100)
            tray.write(TRAY[:100])
        placed = dict(width=10, height=10, source_stride=10, output_stride=10)
        listed = job(source_offset=far - 100, output_offset=far - 100, **placed)
        name = self.put("list", as_json([listed, {**listed, "output_offset": far - 99}]))
        before = f"import resource; resource.setrlimit(resource.RLIMIT_DATA, ({2**28}, {2**28}))"
        status, written, said = self.run_apart("tray", name, "tray", "-o", "out", before=before)
        self.assertEqual((status, said), (1, ""))
        self.assertIn(b"refused 12 at 0", written)
        self.assertEqual(os.stat(self.at("out")).st_size, far)
        wanted = bytearray(100)
        sotrugla.run(CLOSING, Page(0, 10, 10, 10), TRAY[:100], Spot(0, 10), wanted)
        with open(self.at("out"), "rb") as out:
            self.assertEqual(out.read(100), bytes(100))
            out.seek(far - 100)
            self.assertEqual(out.read(), wanted)

    def test_no_room_on_the_disk(self):
        """It is known before a page is written: a mapping that meets a full disk ends the process."""
        name = self.put("list", as_csv(JOBS))
        self.put("used", bytes(len(TRAY)))
        full = OSError(errno.ENOSPC, os.strerror(errno.ENOSPC))
        for out in (self.at("out"), self.at("used")):
            with mock.patch("os.posix_fallocate", side_effect=full):
                wanted = 1, f"{out}: cannot be written: No space left on device\n"
                self.assertEqual(self.run_here("tray", name, self.at("tray"), "-o", out), wanted)
        self.assertEqual(self.content("used"), bytes(len(TRAY)))
        self.assertEqual(self.names(), sorted([*self.before, "list", "used"]))

    def test_no_room_is_kept_for_refused_places(self):
        """They may name all of a tray, which may have more holes than the disk has room."""
        for name in ("tray", "used"):
            with open(self.at(name), "wb") as tray:
                tray.truncate(2**20)
        wide, wider = dict(source_stride=8192, output_stride=8192), dict(source_stride=16384, output_stride=16384)
        kept = [(job(), (3, 32)), (job(width=8192, height=2, **wide), (3, 16384)), (job(**wider), (3, 3 * 16384 + 5))]
        refused = [
            job(width=2**14, height=1, **wider),
            job(width=2**14, height=0, **wider),
            job(width=1, height=8193),
            job(width=0),
            job(height=0),
            job(output_stride=4),
            job(output_stride=16385),
            job(source_stride=4),
            job(source_stride=16385),
            job(output_offset=2**20 - 31),
        ]
        name = self.put("list", as_json([*refused, *(listed for listed, _ in kept)]))
        for out in ("out", "used"):
            with mock.patch("os.posix_fallocate") as reserved, mock.patch.object(files, "put") as told:
                self.assertEqual(self.run_here("tray", name, self.at("tray"), "-o", self.at(out)), (1, ""))
            self.assertEqual([call.args[1:] for call in reserved.call_args_list], [span for _, span in kept])
            self.assertTrue(told.call_args.args[1].endswith(b"\n3 of 13 pages finished\n"))

    def test_a_disk_that_keeps_no_room(self):
        name, out = self.put("list", as_csv(JOBS)), self.at("out")
        none = OSError(errno.EOPNOTSUPP, os.strerror(errno.EOPNOTSUPP))
        with mock.patch("os.posix_fallocate", side_effect=none), mock.patch.object(files, "put"):
            self.assertEqual(self.run_here("tray", name, self.at("tray"), "-o", out), (1, ""))
        self.assertEqual(self.content("out"), single(JOBS, bytearray(len(TRAY)))[0])


class Named(TrayCase):
    """A new tray gets its name only where nothing has it by then."""

    def setUp(self):
        super().setUp()
        self.words = ("tray", self.put("list", as_csv(JOBS)), self.at("tray"), "-o", self.at("out"))

    def ended(self, **patches):
        """The exit status and what is said, where some functions of the system do something else."""
        with contextlib.ExitStack() as stack:
            for name, done in patches.items():
                stack.enter_context(mock.patch(f"os.{name}", side_effect=done))
            stack.enter_context(mock.patch.object(files, "put"))
            return self.run_here(*self.words)

    def appeared(self, appear, **patches):
        """The end of a run, during which something appears in the output's place."""
        run_tray = sotrugla.run_tray

        def run(*given):
            appear()
            return run_tray(*given)

        with mock.patch("sotrugla.run_tray", run):
            return self.ended(**patches)

    def test_what_appears_during_a_run_stays(self):
        out, why = self.at("out"), "a file of this name appeared meanwhile, and nothing of it was changed"
        for patches in ({}, {"link": failure(errno.EPERM)}):
            for appear, is_there, remove in (
                (lambda: self.put("out", b"another's"), lambda: self.content("out") == b"another's", os.remove),
                (lambda: os.mkdir(out), lambda: os.path.isdir(out), os.rmdir),
                (lambda: os.symlink("none", out), lambda: os.readlink(out) == "none", os.remove),
            ):
                self.assertEqual(self.appeared(appear, **patches), (1, f"{out}: cannot be written: {why}\n"))
                self.assertTrue(is_there())
                self.assertEqual(self.names(), sorted([*self.before, "list", "out"]))
                remove(out)

    def test_a_disk_without_hard_links(self):
        for number in (errno.EPERM, errno.EOPNOTSUPP, errno.ENOSYS, errno.EMLINK):
            self.assertEqual(self.ended(link=failure(number)), (1, ""))
            self.assertEqual(self.content("out"), single(JOBS, bytearray(len(TRAY)))[0])
            self.assertEqual(self.names(), sorted([*self.before, "list", "out"]))
            os.remove(self.at("out"))

    def test_a_name_that_cannot_be_given(self):
        said = f"{self.at('out')}: cannot be written: No space left on device\n"
        self.assertEqual(self.ended(link=failure(errno.ENOSPC)), (1, said))
        self.assertEqual(self.ended(link=failure(errno.EPERM), rename=failure(errno.ENOSPC)), (1, said))
        self.assertEqual(self.names(), sorted([*self.before, "list"]))

    def test_an_interrupt_just_behind_the_naming(self):
        link = os.link

        def interrupted(*names):
            link(*names)
            raise KeyboardInterrupt

        self.assertEqual(self.ended(link=interrupted), (130, ""))
        self.assertEqual(self.content("out"), single(JOBS, bytearray(len(TRAY)))[0])
        self.assertEqual(self.names(), sorted([*self.before, "list", "out"]))

    def test_a_link_to_nothing_is_refused(self):
        """Neither is it replaced, nor is what it names made; and it is known before a page is cleaned."""
        said = f"{self.at('out')}: cannot be written: it is a link to nothing\n"
        for target in ("none", "none/deeper", "out"):
            os.symlink(target, self.at("out"))
            with mock.patch("sotrugla.run_tray") as run:
                self.assertEqual(self.ended(), (1, said))
            run.assert_not_called()
            self.assertEqual(os.readlink(self.at("out")), target)
            self.assertEqual(self.names(), sorted([*self.before, "list", "out"]))
            os.remove(self.at("out"))


class Wrong(TrayCase):
    """Nothing is made, and nothing is changed."""

    def wrong(self, content, *sentences):
        name = self.put("list", content)
        status, said = self.run_here("tray", name, self.at("tray"), "-o", self.at("out"))
        self.assertEqual(status, 2, said)
        for sentence in sentences:
            self.assertIn(f"sotrugla tray: error: {name}: {sentence}", said)
        self.assertEqual(self.names(), sorted([*self.before, "list"]))

    def test_columns(self):
        for column in COLUMNS:
            left = [name for name in COLUMNS if name != column]
            short = {name: value for name, value in job().items() if name != column}
            self.wrong(as_csv([short], left), f"head line: {column} is missing\n")
            self.wrong(as_json([job(), short]), f"job 2: {column} is missing\n")
        unknown = f'"pages" is unknown; the columns are {", ".join(COLUMNS)}\n'
        self.wrong(as_csv([], [*COLUMNS, "pages"]), f"head line: {unknown}")
        self.wrong(as_json([{**job(), "pages": 1}]), f"job 1: {unknown}")
        self.wrong(as_csv([], [*COLUMNS, "page"]), "head line: page stands there twice\n")
        self.wrong(as_json([job()])[:-2] + b', "height": 3}]', "job 1: height stands there twice\n")

    def test_nothing(self):
        for content in (b"", b" \n\t\r\n", b"\xef\xbb\xbf"):
            self.wrong(content, "it is empty; a list without jobs is [], or a head line alone\n")

    def test_lines(self):
        lines = as_csv([job(), job()])
        self.wrong(lines[:-4], "job 2: output_stride is missing\n")
        self.wrong(lines[:-2] + b",7\r\n", 'job 2: "7" has no column\n')
        self.wrong(lines + b'"', "line 4: ")
        self.wrong(lines.replace(b"one", b"\xff"), "it is no text in UTF-8\n")

    def test_json(self):
        self.wrong(b"[", "line 1, column 2: ")
        self.wrong(as_json([job()]) + b"x", "line 1, column ")
        self.wrong(b"[" * 100000, "")
        self.wrong(b"[1" + b"0" * 5000 + b"]", "")
        self.wrong(b'[3, {"page": 1}]', "job 1: it is 3, not an object\n")
        self.wrong(b'[["page"]]', 'job 1: it is ["page"], not an object\n')

    def test_json_that_is_no_array(self):
        for content in (json.dumps(job()), json.dumps({"jobs": [job()]}), f"\n {json.dumps(job(), indent=2)}", "{"):
            self.wrong(content.encode(), "it begins with {; a list in JSON is an array, and begins with [\n")

    def test_more_than_256_jobs(self):
        """They are refused by their number where the list is right."""
        self.wrong(as_json([job()] * 299 + [job(width=-1)]), "job 300: width is -1, not a whole number")

    def test_numbers(self):
        not_so = "not a whole number from 0, below 2^64\n"
        for column in COLUMNS[2:]:
            for value in ("", "-1", "+1", "1.0", "x", "٣", str(2**64), "1 "):
                shown = json.dumps(value, ensure_ascii=False) if value != str(2**64) else value
                self.wrong(as_csv([job(), job(**{column: value})]), f"job 2: {column} is {shown}, {not_so}")
            for value in (-1, 1.0, True, None, "1", 2**64, [1], {"a": 1}, float("inf")):
                self.wrong(as_json([job(**{column: value})]), f"job 1: {column} is {json.dumps(value)}, {not_so}")
        self.wrong(as_json([job(width="\x1b" * 99)]), 'job 1: width is "' + "\\u001b" * 6 + f"\\u0..., {not_so}")

    def test_numbers_that_are_numbers(self):
        jobs = [job(width="0005", source_offset="0" * 30 + "3"), job(output_offset=2**64 - 1)]
        self.assertIn("refused 12 at 0", self.ran(jobs, status=1))

    def test_texts(self):
        for column in ("page", "ticket"):
            for value in (1, None, ["x"]):
                self.wrong(as_json([job(**{column: value})]), f"job 1: {column} is {json.dumps(value)}, not a text\n")

    def test_tickets_that_cannot_be_read(self):
        cases = [("none", "No such file or directory"), (".", "Is a directory"), ("", "Is a directory"), ("a\0b", "")]
        for ticket, why in [*cases, ("\ud800", "")]:
            name = self.put("list", as_json([job(), job(ticket=ticket)]))
            status, said = self.run_here("tray", name, self.at("tray"), "-o", self.at("out"))
            shown = ticket.replace("\0", "\\x00").replace("\ud800", "\\ud800")
            start = f"{name}: job 2: ticket {self.folder}/{shown} cannot be read: {why}"
            self.assertEqual((status, said[: len(start)], said.count("\n")), (1, start, 1), said)
            self.assertEqual(self.names(), sorted([*self.before, "list"]))

    def test_files_that_cannot_be_read_or_written(self):
        name, none, pipe = self.put("list", as_csv(JOBS)), self.at("none"), self.at("pipe")
        os.mkfifo(pipe)
        apart = "it is no ordinary file, which alone can be mapped"
        cases = [
            ((none, self.at("tray"), self.at("out")), f"{none}: cannot be read: No such file or directory\n"),
            ((name, none, self.at("out")), f"{none}: cannot be read: No such file or directory\n"),
            ((name, str(self.folder), self.at("out")), f"{self.folder}: cannot be read: {apart}\n"),
            ((name, pipe, self.at("out")), f"{pipe}: cannot be read: {apart}\n"),
            ((name, self.at("tray"), pipe), f"{pipe}: cannot be written: {apart}\n"),
            ((name, self.at("tray"), f"{none}/out"), f"{none}/out: cannot be written: No such file or directory\n"),
        ]
        for (listed, tray, out), said in cases:
            self.assertEqual(self.run_here("tray", listed, tray, "-o", out), (1, said))
        self.assertEqual(self.names(), sorted([*self.before, "list", "pipe"]))

    def test_uses(self):
        name, tray, out = self.put("list", as_csv(JOBS)), self.at("tray"), self.at("out")
        os.link(tray, self.at("same"))
        trays = "trays are mapped: they are files, not standard input and standard output"
        cases = [((name, "-", out), trays), ((name, tray, "-"), trays)]
        for folder in (f"{out}/", str(self.folder)):
            cases.append(((name, tray, folder), f"{folder} is a folder, and the output tray a file"))
        for taken in (tray, self.at("same"), name, self.at("close.ticket")):
            cases.append(((name, tray, taken), f"{taken} is an input, and the output would be written over it"))
        for (listed, source, written), sentence in cases:
            status, said = self.run_here("tray", listed, source, "-o", written)
            self.assertEqual((status, said.splitlines()[-1]), (2, f"sotrugla tray: error: {sentence}"))
        self.assertEqual(self.content("tray"), TRAY)
        self.assertEqual(self.names(), sorted([*self.before, "list", "same"]))


class Ended(TrayCase):
    """Runs that end before their time leave nothing under the output's name, and no part of it."""

    def test_an_interrupt(self):
        name = self.put("list", as_csv(JOBS))
        for end, status in ((KeyboardInterrupt, 130), (SystemExit(143), 143)):
            with mock.patch("sotrugla.run_tray", side_effect=end):
                self.assertEqual(self.run_here("tray", name, self.at("tray"), "-o", self.at("out")), (status, ""))
            self.assertEqual(self.names(), sorted([*self.before, "list"]))

    def test_too_little_memory(self):
        name, tray = self.put("list", as_csv(JOBS)), self.at("tray")
        with mock.patch("sotrugla.run_tray", side_effect=MemoryError):
            wanted = 1, f"{tray}: cannot be cleaned: there is not enough memory\n"
            self.assertEqual(self.run_here("tray", name, tray, "-o", self.at("out")), wanted)
        self.assertEqual(self.names(), sorted([*self.before, "list"]))

    def test_interrupted_or_terminated_while_it_runs(self):
        side = 2000
        with open(self.at("tray"), "wb") as tray:
            tray.truncate(side * side)
        large = job(width=side, height=side, source_offset=0, source_stride=side, output_offset=0, output_stride=side)
        name = self.put("list", as_json([large] * 100))
        for ended, status in ((signal.SIGINT, 130), (signal.SIGTERM, 143)):
            process = self.start("tray", name, "tray", "-o", "out", stdout=subprocess.PIPE, stderr=subprocess.PIPE)
            until = time.monotonic() + 60
            while time.monotonic() < until and len(self.names()) == len(self.before) + 1:
                time.sleep(0.001)
            process.send_signal(ended)
            found = process.stdout.read(), process.stderr.read(), process.wait()
            self.assertEqual(found, (b"", b"", status))
            self.assertEqual(self.names(), sorted([*self.before, "list"]))


if __name__ == "__main__":
    unittest.main()
