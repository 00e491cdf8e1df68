"""The compiled Rattle code under test: builds the library and the program that answers queries about it."""

import re
import subprocess
from array import array
from functools import lru_cache
from pathlib import Path

from model.record import Record, Settings

ROOT = Path(__file__).resolve().parent.parent
HEADER = ROOT / "tests" / "probe.h"
SOURCE = ROOT / "tests" / "probe.c"
RECORDS = ROOT / "tests" / "records.c"

QUERY = 8
ANSWER = 4
# Of a query about a client: settings, last clock, record, word count, kind, client, a and b. Of its answer: number, clock, record, how many
# words are changed, and the changed node with its word.
BEFORE_PAIRS = len(Settings._fields) + len(Record._fields) + 6
RECORD_ANSWER = len(Record._fields) + 5
SECONDS = 30

RESULTS = {"uint64_t": ("result",), "struct swap": ("done", "word"), "struct cover": ("number", "first", "second", "over")}


def signatures():
    """The names of each call's arguments and results, as the header declares them."""
    found = {}
    declaration = re.compile(r"^(uint64_t|struct \w+) probe_(\w+)\((.*)\);$", re.MULTILINE)
    for result, call, arguments in declaration.findall(HEADER.read_text()):
        found[call] = tuple(argument.split()[-1] for argument in arguments.split(",")), RESULTS[result]
    return found


def command(*words):
    """Runs a command of the build, which says itself what is wrong when it fails."""
    if subprocess.run(words, cwd=ROOT).returncode != 0:
        raise SystemExit(f"failed: {' '.join(map(str, words))}")


@lru_cache(maxsize=None)
def made(path):
    """The file of that path under target/. The Makefile has it proved and built, unless it is newer than all that it is built from. It is asked
    but once, since it must not be called twice at the same time."""
    command("make", "--silent", f"target/{path}")
    return ROOT / "target" / path


def build_program(library, source):
    """The program that answers queries, linked with the library."""
    program = ROOT / "target" / "tests" / source.stem
    program.parent.mkdir(parents=True, exist_ok=True)
    command("gcc", "-std=c11", "-O2", "-Wall", "-Wextra", "-Werror", source, library.resolve(), "-o", program)
    return program


class Program:
    """Answers many queries in one run of the program."""

    def __init__(self, program):
        self.program = program
        names = subprocess.run([program, "names"], check=True, capture_output=True, text=True).stdout.split()
        self.place = {name: place for place, name in enumerate(names)}

    def run(self, queries, width):
        """The answers to the queries, each of `width` numbers. A call that does not end is given up."""
        run = subprocess.run([self.program], input=queries.tobytes(), check=True, capture_output=True, timeout=SECONDS)
        numbers = array("Q")
        numbers.frombytes(run.stdout)
        return [tuple(numbers[at:at + width]) for at in range(0, len(numbers), width)]


class Probe(Program):
    """The functions of the words, the tree and the cover: a query of eight numbers, an answer of four."""

    def answers(self, cases):
        queries = array("Q")
        for case in cases:
            unused = (0,) * (QUERY - 1 - len(case.arguments))
            queries.extend((self.place[case.call], *case.arguments, *unused))
        return self.run(queries, ANSWER)


class Records(Program):
    """The calls on one client: a query ends with as many pairs of a node and its word as it says."""

    def answers(self, cases):
        queries = array("Q")
        for case in cases:
            pairs = (len(case.arguments) - BEFORE_PAIRS) // 2
            queries.extend((self.place[case.call], pairs, *case.arguments))
        return self.run(queries, RECORD_ANSWER)
