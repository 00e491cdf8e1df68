"""Cases for the processes that tests run in: a test that fails is counted, and so is each that its process does not live to run; and all are shown
in the order of the groups."""

import os
import sys
from contextlib import redirect_stdout
from io import StringIO
from signal import SIGKILL
from time import sleep

from compare import NAMES, case
from runner import run_all, with_answers

NAMES["answer of a test"] = (), ("number",)
NAMES["run of two groups"] = ("place in the list of tests",), ("exit status", "passed", "failed", "lines not in their order")

# So long that a second group has ended before the first.
SECONDS = 0.2
NAMED = ["one", "two", "three", "four"]


def answered(number=1, end=lambda: None):
    """A test with this answer, in the middle of which something may happen."""
    yield case("answer of a test", [], 1), number
    sleep(SECONDS)
    end()


def passing():
    yield case("answer of a test", [], 1), 1


# A test that passes, one that fails, and those in which the process is killed, falls, and ends as if it had done its work; and the exit status
# with it, and how many pass and fail, that behind it in its group, two in another and the comparer among them.
TESTS = [
    (lambda: answered(), (0, 5, 0)), (lambda: answered(0), (1, 4, 1)), (lambda: answered(end=lambda: os.kill(os.getpid(), SIGKILL)), (1, 3, 2)),
    (lambda: answered(end=lambda: 1 // 0), (1, 3, 2)), (lambda: answered(end=lambda: sys.exit(0)), (1, 3, 2)),
]


def counted(test):
    """Runs it as the first of two groups of two, and looks at what is printed."""
    groups = [dict(zip(NAMED[:2], (test, passing))), dict(zip(NAMED[2:], (passing, passing)))]
    with redirect_stdout(StringIO()) as printed:
        status = run_all([with_answers(tests) for tests in groups])
    *lines, last = printed.getvalue().splitlines()
    named = [name for name, *_ in (line.split(":") for line in lines) if name in NAMED]
    passed, _, failed, _ = last.split()
    return status, int(passed), int(failed), int(named != NAMED)


def failed_tests():
    for place, (test, expected) in enumerate(TESTS):
        yield case("run of two groups", [place], (*expected, 0)), counted(test)


SUITES = {"tests, one that fails and one whose process ends are counted": failed_tests}
