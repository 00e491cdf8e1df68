"""Cases for examples/run.c, the forecast run that others copy, linked by each command of docs/LINKING.md with what is installed: it adds one to each
unit of its window and to no other; of two at once none loses what the other wrote; a signal ends one that waits; and whatever it is refused, it
leaves nothing taken."""

import re
import shutil
import signal
import subprocess
import time
from contextlib import contextmanager
from functools import lru_cache
from pathlib import Path

from compare import NAMES, case
from installed_run_cases import built_shared, over_network, serving, transports
from library import ROOT, SECONDS
from prefix import CHECKED_C, asked, environment, place, prefix, run

NAMES["forecasts"] = ("transport", "linked", "runs at once"), ("exit status", "units of the window with another number", "units elsewhere not 0")
NAMES["forecast without libfabric"] = ("over a network",), ("exit status", "says why")
NAMES["forecast that waits"] = ("transport", "signal"), ("exit status", "says why", "exit status of rangerun tree")
NAMES["forecast that is refused"] = (), ("exit status", "says why", "exit status of rangerun tree")

EXAMPLE = ROOT / "examples" / "run.c"
# With the shared libraries, with the archives, and without libfabric.
COMMANDS = re.findall(r"^    (gcc .*\brun\.c .*)$", (ROOT / "docs" / "LINKING.md").read_text(), re.MULTILINE)
# A leaf and inner nodes of the units of the server; one leaf; and how often each of two runs makes its forecast.
UNITS, WINDOW, LEAF, ROUNDS = 1024, (10, 1000), ("60", "64"), 6
READER = """
#include <nolthewyr_run.h>
#include <stdio.h>

int main(int argc, char **argv)
{
    static uint64_t units[%d];
    char error[200];
    nolthewyr_run *run = nolthewyr_run_open(argv[argc - 1], error, sizeof error);
    int wrong = run == NULL || nolthewyr_run_take(run, 0, %d, 0) || nolthewyr_run_read(run, 0, %d, units);
    for (int i = 0; i < %d && !wrong; i++)
        printf("%%d\\n", (int)units[i]);
    if (run != NULL)
        nolthewyr_run_close(run);
    return wrong;
}
""" % (UNITS, UNITS, UNITS, UNITS)


@lru_cache(maxsize=None)
def without_libfabric():
    """Where everything is installed as it is built without libfabric. Nothing is proved again: the other one is there before."""
    prefix()
    places = f"BUILT={place('without/build')}", f"PREFIX={place('without/prefix')}", "DESTDIR="
    run("make", "-C", ROOT, "--silent", "FABRIC=", *places, "install")
    return place("without/prefix")


@lru_cache(maxsize=None)
def linked(number):
    """The example, by a command of the document."""
    below = without_libfabric() if " -static " in COMMANDS[number] else prefix()
    folder = place(f"forecast-{number}")
    folder.mkdir()
    shutil.copy(EXAMPLE, folder)
    line = COMMANDS[number].replace("gcc", " ".join(CHECKED_C), 1).replace(" -lfabric", " -lfabric" * over_network())
    run("bash", "-c", f"cd {folder} && {line}", PKG_CONFIG_PATH=str(below / "lib" / "pkgconfig"))
    return folder / "run"


def found():
    """Where the loader finds the shared libraries."""
    return environment(LD_LIBRARY_PATH=asked("--variable=libdir", package="nolthewyr_run")[0])


def begun(program, file, times):
    """A process that makes the forecast so many times, one after another."""
    script = f'for i in $(seq {times}); do "$@" || exit; done'
    return subprocess.Popen(["bash", "-c", script, "bash", program, file, *map(str, WINDOW)], env=found())


def units(file):
    [libraries] = asked("--variable=libdir", package="nolthewyr_run")
    return [int(line) for line in run(reader(), file, LD_LIBRARY_PATH=libraries).splitlines()]


@lru_cache(maxsize=None)
def reader():
    return built_shared("reader", READER)


def forecasts():
    """One is made, and then many by two at once."""
    left, right = WINDOW
    for number, over in enumerate(transports()):
        for way in range(len(COMMANDS) if over == "memory" else 2):
            with serving(over) as file:
                made = 0
                for together, times in ((1, 1), (2, ROUNDS)):
                    status = max(process.wait(SECONDS) for process in [begun(linked(way), file, times) for _ in range(together)])
                    now, made = units(file), made + together * times
                    unlike = right - left - now[left:right].count(made)
                    elsewhere = UNITS - (right - left) - (now[:left] + now[right:]).count(0)
                    yield case("forecasts", [number, way, together], (0, 0, 0)), (status, unlike, elsewhere)


def ran(program, file, *window):
    return subprocess.run([program, file, *window], env=found(), capture_output=True, text=True, timeout=SECONDS)


def alone_in_memory():
    """A program that is linked without libfabric says over a network why it cannot run."""
    [static] = [number for number, line in enumerate(COMMANDS) if " -static " in line]
    for over in transports()[1:]:
        with serving(over) as file:
            ended = ran(linked(static), file, *LEAF)
            yield case("forecast without libfabric", [1], (1, 1)), (ended.returncode, int("built without libfabric" in ended.stderr))
    dynamic = subprocess.run(["objdump", "-p", linked(static)], capture_output=True, text=True).stdout
    yield case("forecast without libfabric", [0], (0, 0)), (0, int("NEEDED" in dynamic))


@contextmanager
def held(file):
    """The leaf's units are held meanwhile."""
    words = [prefix() / "bin" / "rangerun", file, "hold", *LEAF, "sh", "-c", "echo held; exec sleep 30"]
    with subprocess.Popen(words, env=environment(), stdout=subprocess.PIPE, text=True) as process:
        try:
            process.stdout.readline()
            yield
        finally:
            process.terminate()


def catches(process, number):
    """Whether the process has a handler of its own for the signal."""
    [mask] = re.findall(r"^SigCgt:\s*(\w+)$", Path(f"/proc/{process.pid}/status").read_text(), re.MULTILINE)
    return int(mask, 16) >> number - 1 & 1


def signalled(file, number):
    """How a run ends that waits, when it gets the signal. SIGHUP is the last for which it gets ready."""
    words = ["env", "--default-signal=TERM,INT,HUP", linked(0), file, *LEAF]
    with subprocess.Popen(words, env=found(), stderr=subprocess.PIPE, text=True) as process:
        until = time.monotonic() + SECONDS
        while not catches(process, signal.SIGHUP) and time.monotonic() < until:
            time.sleep(0.01)
        process.send_signal(number)
        said = process.communicate(timeout=SECONDS)[1]
    return process.returncode, int(f"run: [{', '.join(LEAF)}) was not to be had before the take was cancelled\n" in said)


def unclean(file):
    return subprocess.run([prefix() / "bin" / "rangerun", file, "tree"], env=environment(), stdout=subprocess.DEVNULL, timeout=SECONDS).returncode


def cancelled():
    """It says that the take was cancelled, and nothing is left of it when the window is given back by who held it."""
    for number, over in enumerate(transports()):
        for sent in (signal.SIGTERM, signal.SIGINT, signal.SIGHUP):
            with serving(over) as file:
                with held(file):
                    ended = signalled(file, sent)
                yield case("forecast that waits", [number, int(sent)], (1, 1, 0)), (*ended, unclean(file))


def refused():
    """If its write is refused, here since it begins before the window, the run gives the window back all the same."""
    text, replaced = re.subn(r"nolthewyr_run_write\(run, left,", "nolthewyr_run_write(run, left - 1,", EXAMPLE.read_text())
    with serving("memory") as file:
        ended = ran(built_shared("refused", text), file, *LEAF)
        says = replaced == 1 and "are not in a window that is held" in ended.stderr
        yield case("forecast that is refused", [], (1, 1, 0)), (ended.returncode, int(says), unclean(file))


SUITES = {
    "installed, examples/run.c adds one to each unit, and two at once lose nothing": forecasts,
    "installed, examples/run.c without libfabric is linked with nothing shared": alone_in_memory,
    "installed, examples/run.c that waits is ended by a signal": cancelled,
    "installed, examples/run.c gives back when it is refused": refused,
}
