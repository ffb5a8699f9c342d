"""Threads: on a stack too small a call raises, on one that is large enough it runs."""

import subprocess
import sys
import threading
import unittest
import unittest.mock

import sotrugla
from sotrugla import stack

from .jobs import ALONE, PYTHON, ROW, SPOT, ticket


def run_job():
    output = bytearray(3)
    sotrugla.run(ticket(), ALONE, ROW, SPOT, output)
    return list(output)


def in_a_thread(size, call):
    """What the call gives, or raises, in a thread with such a stack."""
    found = []

    def keep():
        try:
            found.append(call())
        except RuntimeError as error:
            found.append(error)

    before = threading.stack_size(size)
    thread = threading.Thread(target=keep)
    thread.start()
    thread.join()
    threading.stack_size(before)
    return found[0]


def print_refusals():
    """What each call says on a small stack."""
    calls = [
        run_job,
        lambda: sotrugla.run_pgm(ticket(), b"P5 3 1 9 " + ROW),
        lambda: sotrugla.read_ticket(ticket().encode()),
        lambda: sotrugla.erosion(memoryview(ROW).cast("B", [1, 3]), along=(1, 0), length=2),
    ]
    for call in calls:
        print(repr(in_a_thread(128 * 1024, call)))


class Stacks(unittest.TestCase):
    def test_too_small(self):
        """In a process of its own: where others have run, a thread may be given the larger stack of one that ended."""
        code = "from tests.test_stack import print_refusals; print_refusals()"
        printed = subprocess.check_output([sys.executable, "-B", "-c", code], cwd=PYTHON, text=True)
        advice = r"call threading.stack_size\(524288\) before the thread is started"
        sentence = rf"RuntimeError\('this thread has a stack of 1\d{{5}} bytes, and a call needs 524288: {advice}'\)\n"
        self.assertRegex(printed, f"^({sentence}){{4}}$")

    def test_just_large_enough(self):
        self.assertEqual(in_a_thread(512 * 1024, run_job), [1, 1, 5])

    def test_sizes_left_to_the_system(self):
        self.assertEqual(in_a_thread(0, run_job), [1, 1, 5])
        self.assertEqual(run_job(), [1, 1, 5])

    def test_asked_for_once_a_thread(self):
        with unittest.mock.patch.object(stack, "_stack_size", wraps=stack._stack_size) as asked:
            in_a_thread(0, lambda: [run_job() for _ in range(3)])
        self.assertEqual(asked.call_count, 1)

    def test_asking_leaves_the_size(self):
        before = threading.stack_size(768 * 1024)
        stack._asked_for()
        self.assertEqual(threading.stack_size(before), 768 * 1024)

    def test_where_the_c_library_cannot_tell(self):
        """Then what Python asks for is all that is known."""
        with unittest.mock.patch.object(stack.ctypes, "CDLL", return_value=object()):
            self.assertIsInstance(in_a_thread(128 * 1024, run_job), RuntimeError)
            self.assertEqual(in_a_thread(512 * 1024, run_job), [1, 1, 5])
            self.assertEqual(in_a_thread(0, run_job), [1, 1, 5])
            self.assertEqual(stack._stack_size(), stack.NEEDED)
