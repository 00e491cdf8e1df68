"""Memory servers and runs on them, as processes: `rangeserver` and `rangerun` built, started and ended, what they print, and the words and units
that a server over shared memory has."""

import os
import subprocess
from array import array
from contextlib import contextmanager
from functools import lru_cache
from pathlib import Path
from tempfile import TemporaryDirectory
from typing import NamedTuple

from compare import NAMES, case
from library import ROOT, SECONDS, command, made
from model import tree, word

NETWORK = "tcp;ofi_rxm"
MISSING = "libfabric is not on this machine, so that no run goes over a network here; on Debian and Ubuntu: apt-get install libfabric-dev"
CHECKED_C = "gcc", "-std=c11", "-D_GNU_SOURCE", "-O2", "-Wall", "-Wextra", "-Werror", "-I", "include"
# The names that rangerun prints, in its order.
PRINTED = (
    "windows", "torn", "late", "out-of-patience", "operations", "added", "flipped", "dropped", "swaps", "together", "round-trips", "seconds",
)

# The bytes of a server's shared memory ahead of its words.
HEAD = 4096

# The calls that tests/broken_run.c takes the place of, and what its own are called.
REPLACED = {"completed": "completed", "completed_all": "completed_all", "operations_ahead": "ahead"}

NAMES["libfabric"] = (), ("on this machine",)


class Tried(NamedTuple):
    """What the runs of a trial came to: how many of them ended otherwise than well, and what all have counted, by name."""

    failed: int
    counts: dict


@lru_cache(maxsize=None)
def program(name):
    return made(f"build/{name}")


@lru_cache(maxsize=None)
def has_libfabric():
    """Whether a program can be built with it here: then a server and a run must be."""
    return subprocess.run(["gcc", "-E", "-include", "rdma/fabric.h", "-x", "c", os.devnull], capture_output=True).returncode == 0


def without_libfabric():
    """In place of the cases of a network."""
    print(f"    {MISSING}")
    yield case("libfabric", [], 0), 0


def build_with_run(built, source):
    """Builds a program of one source in C with the library of runs."""
    libraries = [made("build/libnolthewyr_run.a"), made("build/libnolthewyr.a"), *["-lfabric"] * has_libfabric()]
    command(*CHECKED_C, source, *libraries, "-o", built)


@lru_cache(maxsize=None)
def run_in_part():
    """`rangerun` with tests/broken_run.c between the proved calls and the places in run/ that call them, as the Makefile builds it."""
    folder = Path("target/tests/in_part")
    (ROOT / folder).mkdir(parents=True, exist_ok=True)
    between, library, built = (folder / name for name in ("broken_run.o", "libnolthewyr.a", "rangerun"))
    command(*CHECKED_C, "-c", "tests/broken_run.c", "-o", between)
    (ROOT / built).unlink(missing_ok=True)  # make knows nothing of what stands between
    replaced = " ".join(f"-Dnolthewyr_{call}={own}_in_part" for call, own in REPLACED.items())
    command("make", "--silent", f"BUILT={folder}", f"CFLAGS=-O2 {replaced}", f"LDLIBS={between} {library}", built)
    return ROOT / built


def server_line(file, over, settings, *options):
    """The words by which a server is started."""
    named = zip(("--levels", "--distance", "--wait", "--patience"), map(str, settings))
    return [program("rangeserver"), *(text for pair in named for text in pair), "--over", over, *map(str, options), file]


def log_of(file):
    """Where the log of a server is kept, which is what it says on standard error."""
    return Path(f"{file}.log")


def serves(file, over, settings, *options):
    """A server, when it serves. What it says is put behind what its log has so far."""
    with log_of(file).open("a") as log:
        server = subprocess.Popen(server_line(file, over, settings, *options), stdout=subprocess.PIPE, stderr=log, text=True)
    said = server.stdout.readline()
    if said != f"serving {file}\n":
        server.kill()
        server.wait()
        raise subprocess.SubprocessError(f"rangeserver over {over} says {said!r} and {log_of(file).read_text()!r}")
    return server


@contextmanager
def serving(over, settings, *options):
    """The file of a server, which serves meanwhile."""
    with TemporaryDirectory() as folder:
        file = Path(folder) / "server"
        server = serves(file, over, settings, *options)
        try:
            yield file
        finally:
            server.terminate()
            server.wait(SECONDS)


def started(file, *words, run=None, **environment):
    """A run, begun."""
    return subprocess.Popen([run or program("rangerun"), file, *words], stdout=subprocess.PIPE, text=True, env={**os.environ, **environment})


def ended(process):
    """What a run printed, when it has ended. One that does not end is killed."""
    try:
        return process.communicate(timeout=SECONDS)[0]
    except subprocess.TimeoutExpired:
        process.kill()
        return process.communicate()[0]


@contextmanager
def running(file, *words):
    """A run, which is ended at last if it has not ended by itself: it gives back what it has, if it can."""
    process = started(file, *words)
    try:
        yield process
    finally:
        process.terminate()
        ended(process)


def counted(text):
    """The numbers of the line that `try` prints; all 0 if it printed none."""
    words = text.split()
    if tuple(words[::2]) != PRINTED:
        return dict.fromkeys(PRINTED, 0)
    return dict(zip(PRINTED, map(float, words[1::2])))


def tried(file, processes, windows, *options, run=None, **environment):
    """So many runs at once, which take so many windows in all; each has its own number, from 1 on."""
    share = str(windows // processes)
    runs = [started(file, "try", "--windows", share, "--number", str(number), "--seed", str(number), *options, run=run, **environment)
            for number in range(1, processes + 1)]
    counts = [counted(ended(process)) for process in runs]
    failed = sum(process.returncode not in (0, 1) for process in runs)
    return Tried(failed, {name: sum(one[name] for one in counts) for name in PRINTED})


def unclean(file):
    """The exit status of `rangerun FILE tree`: 0 if every word is clean, 1 if one is not."""
    process = started(file, "tree")
    ended(process)
    return process.returncode


def lines_of(file):
    """What a server's file says, by name."""
    return dict(line.split(maxsplit=1) for line in file.read_text().splitlines())


def memory(file):
    """The words and the units of a server over shared memory."""
    named = lines_of(file)
    numbers, words = array("Q"), tree.node_count(int(named["levels"]))
    numbers.frombytes(Path("/dev/shm", named["memory"].lstrip("/")).read_bytes()[HEAD:])
    return numbers[:words], numbers[words:]


def taken(levels, words):
    """What is taken of each node, by its number, none of which stands for a clean word: the bits of a leaf, or of an inner node Occ, how many
    tickets are not back, and how many notices."""
    found = {}
    for node, value in enumerate(words, 1):
        inner = word.unpack(value)
        of_inner = inner.occ, word.wrapped(inner.tmax - inner.tcnt, word.WIDTH.tmax), word.wrapped(inner.dmax - inner.dcnt, word.WIDTH.dmax)
        found[node] = (value,) if tree.is_leaf(levels, node) else of_inner
    return {node: numbers for node, numbers in found.items() if any(numbers)}
