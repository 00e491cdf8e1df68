"""Groups of tests, each in a process of its own, in which its tests run one after another and keep what they work out for each other. As many
run at once as there are processors."""

import os
import sys
from multiprocessing import get_context
from multiprocessing.connection import wait
from tempfile import TemporaryFile

PROCESSES = os.cpu_count()
# A forked process has what cannot be sent to it, functions and the library that is loaded, and need not build anything again.
FORKED = get_context("fork")
STANDARD_OUTPUT, STANDARD_ERROR = 1, 2


def work(tests, run, printed, sending):
    """Runs the tests, and sends of each what `run` gives, and how far all that was printed goes, by programs too."""
    for stream in (STANDARD_OUTPUT, STANDARD_ERROR):
        os.dup2(printed.fileno(), stream)
    # Line by line, so that each stands before what a program prints after it, and none is lost with the process.
    sys.stdout = open(STANDARD_OUTPUT, "w", buffering=1, closefd=False)
    for name, test in tests.items():
        verdict = run(name, test)
        sending.send((verdict, os.lseek(STANDARD_OUTPUT, 0, os.SEEK_CUR)))


class Group:
    """The process that runs a group of tests, and what came of it so far."""

    def __init__(self, tests, run):
        self.left, self.printed, self.shown = list(tests), TemporaryFile(), 0
        self.verdicts, sending = FORKED.Pipe(duplex=False)
        self.process = FORKED.Process(target=work, args=(tests, run, self.printed, sending))
        self.process.start()
        # The process alone holds this end, so that its end is seen at the other.
        sending.close()

    def printed_until(self, end):
        """What was printed since it was last asked for."""
        start, self.shown = self.shown, end
        return os.pread(self.printed.fileno(), end - start, start).decode(errors="replace")

    def ended(self):
        """Each test that has ended, its name, verdict and what was printed. If the process ended before them, all that are left have, without
        a verdict."""
        try:
            verdict, end = self.verdicts.recv()
        except (EOFError, OSError):
            return self.cut_off()
        return [(self.left.pop(0), verdict, self.printed_until(end))]

    def cut_off(self):
        """The tests that are left when the process has ended."""
        self.process.join()
        self.verdicts.close()
        said = self.printed_until(os.fstat(self.printed.fileno()).st_size)
        ended = f"FAILED, the process of its tests ended with {self.process.exitcode}\n"
        return [(name, None, f"{said * (place == 0)}{name}: {ended}") for place, name in enumerate(self.left)]


def ended_tests(groups, run):
    """Each test of the groups, as it ends: its name, what `run` of its name and function gave, None if its process ended before it, and what
    was printed meanwhile. Groups are begun in their order."""
    waiting, running = list(groups), {}
    while waiting or running:
        while waiting and len(running) < PROCESSES:
            group = Group(waiting.pop(0), run)
            running[group.verdicts] = group
        for verdicts in wait(running):
            yield from running[verdicts].ended()
            if verdicts.closed:
                del running[verdicts]
