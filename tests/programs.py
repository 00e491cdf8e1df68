"""The compiled programs `rangelog` and `rangepages`: builds each, runs it on a file, and holds what it prints to what is expected.

RANGELOG and RANGEPAGES in the environment are the commands to run in place of the compiled programs: with
'python3 -m model.schedule' and 'python3 -m model.pages' the tests can be tried without them.
"""

import os
import shlex
import subprocess
from functools import lru_cache
from itertools import zip_longest
from shutil import rmtree
from typing import Callable, NamedTuple

from compare import NAMES, Case
from library import ROOT, SECONDS, made
from model import pages, schedule

UNLIKE = ROOT / "target" / "tests" / "unlike"
MOST_KEPT = 60

PRINTED = ("lines", "bytes", "first line unlike", "ended by signal")


class Ran(NamedTuple):
    """What a run of a program left: what it printed, and the signal that ended it, 0 for none."""

    text: bytes
    signal: int = 0


class Program(NamedTuple):
    """A program that reads a schedule: its name, the ending of files that have what it prints, and the model's function of a file, asked for
    each time, since a rule of the model may be broken meanwhile."""

    name: str
    ending: str
    by_model: Callable

    @lru_cache(maxsize=None)
    def command(self):
        """The command that runs it. What an earlier test of the program kept is removed."""
        rmtree(UNLIKE / self.name, ignore_errors=True)
        if self.name.upper() in os.environ:
            return shlex.split(os.environ[self.name.upper()])
        return [made(f"bin/{self.name}")]

    def run(self, data=None, stdin=None):
        """Runs the program with a file on standard input: its bytes, or an open file."""
        ran = subprocess.run(self.command(), input=data, stdin=stdin, stdout=subprocess.PIPE, cwd=ROOT, timeout=SECONDS)
        return Ran(ran.stdout, max(-ran.returncode, 0))

    def expected(self, data):
        """What the model prints of a file."""
        return self.by_model()(data).encode()

    def keep(self, name, data, expected, ran):
        """Leaves the file of a run that did not print what is expected, and both texts, to be looked at; of many such runs the first."""
        folder = UNLIKE / self.name
        folder.mkdir(parents=True, exist_ok=True)
        if len(list(folder.iterdir())) >= MOST_KEPT:
            return
        plain = "".join(letter if letter.isalnum() else "-" for letter in name)
        for ending, content in {"bin": data, "expected": expected, "printed": ran.text}.items():
            (folder / f"{plain}.{ending}").write_bytes(content)

    def compared(self, name, data, expected, ran):
        """A case that is named for the file, with its answer. If they are unlike, file and texts are kept."""
        wanted, found = numbers(expected, ran)
        if wanted != found:
            self.keep(name, data, expected, ran)
        NAMES.setdefault(f"{self.name}, {name}", (("file's bytes",), PRINTED))
        return Case(f"{self.name}, {name}", (len(data),), wanted), found

    def held_to_model(self, name, data):
        """The program prints what the model does."""
        return self.compared(name, data, self.expected(data), self.run(data))

    def held_to_file(self, path):
        """The model and the program print of a file what stands beside it; without such a file nothing is expected."""
        beside = path.with_suffix(self.ending)
        data, expected = path.read_bytes(), beside.read_bytes() if beside.exists() else b""
        yield self.compared(f"model, {path.name}", data, expected, Ran(self.expected(data)))
        yield self.compared(path.name, data, expected, self.run(data))


RANGELOG = Program("rangelog", ".log", lambda: schedule.log)
RANGEPAGES = Program("rangepages", ".pages", lambda: pages.pages)
PROGRAMS = RANGELOG, RANGEPAGES


def first_unlike(expected, text):
    """The place, from 1, of the first line that is not the expected one; 0 if the texts are equal byte for byte."""
    pairs = zip_longest(expected.split(b"\n"), text.split(b"\n"))
    return next((place for place, (wanted, found) in enumerate(pairs, 1) if wanted != found), 0)


def numbers(expected, ran):
    """The expected numbers of PRINTED, and those of a run."""
    wanted = expected.count(b"\n"), len(expected), 0, 0
    return wanted, (ran.text.count(b"\n"), len(ran.text), first_unlike(expected, ran.text), ran.signal)
