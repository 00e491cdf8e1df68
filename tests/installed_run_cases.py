"""Cases for runs as they are installed: a program built by pkg-config that takes a window, what the library exports, the programs rangeserver and
rangerun with what they answer when something is wrong, and that their pages say how they are used."""

import os
import re
import subprocess
from contextlib import contextmanager

from compare import NAMES, case
from library import ROOT, SECONDS, command
from prefix import CHECKED_C, asked, environment, place, prefix, run

NAMES["run's program"] = ("library", "transport"), ("prints what it wrote",)
NAMES["run's exports"] = ("library",), ("functions", "functions unlike the header's")
NAMES["run's answer"] = ("transport", "claim"), ("exit status", "says why")
NAMES["run's page"] = ("page",), ("says how it is used",)
NAMES["program's version"] = ("program",), ("is the library's",)
NAMES["output that cannot be written"] = ("transport", "claim", "output"), ("exit status", "says why", "server's file is left")

HEADER = ROOT / "include" / "nolthewyr_run.h"
SETTINGS = "--levels", "3", "--distance", "2", "--wait", "20000000", "--patience", "60000000"
PROGRAM = """
#include <nolthewyr_run.h>
#include <stdio.h>

int main(int argc, char **argv)
{
    char error[200] = "no file";
    uint64_t written[] = {5, 6, 7}, found[3] = {0};
    nolthewyr_run *run = argc < 2 ? NULL : nolthewyr_run_open(argv[1], error, sizeof error);
    if (run == NULL || nolthewyr_run_take(run, 60, 70, 0) || nolthewyr_run_write(run, 62, 3, written) || nolthewyr_run_read(run, 62, 3, found))
        return fprintf(stderr, "%s\\n", run == NULL ? error : nolthewyr_run_error(run));
    printf("%d %d %d, ", (int)found[0], (int)found[1], (int)found[2]);
    printf("outside: %d, ", nolthewyr_run_write(run, 68, 3, written));
    printf("twice: %d, ", nolthewyr_run_take(run, 0, 1, 0));
    nolthewyr_run_cancel(run);
    printf("back: %d, ", nolthewyr_run_give_back(run));
    printf("cancelled: %d, ", nolthewyr_run_take(run, 0, 1, 0));
    printf("again: %d, ", nolthewyr_run_take(run, 0, 1, 1000000000));
    printf("windows: %d\\n", (int)nolthewyr_run_counted(run).windows);
    nolthewyr_run_close(run);
    return 0;
}
"""
PRINTED = "5 6 7, outside: 3, twice: 3, back: 0, cancelled: 2, again: 0, windows: 2\n"


def over_network():
    """Whether the installed library goes over libfabric."""
    return "libfabric" in asked("--print-requires-private", package="nolthewyr_run")


def transports():
    return ["memory", *["tcp;ofi_rxm"] * over_network()]


@contextmanager
def serving(over):
    """The file of an installed server, which serves meanwhile. When it has ended the file is gone."""
    file = place("server")
    server = subprocess.Popen([prefix() / "bin" / "rangeserver", *SETTINGS, "--quiet", "--over", over, file], env=environment(), stdout=subprocess.PIPE, text=True)
    try:
        if server.stdout.readline() != f"serving {file}\n":
            raise subprocess.SubprocessError(f"rangeserver over {over} does not serve")
        yield file
    finally:
        server.terminate()
        status = server.wait(SECONDS)
    if status != 0 or file.exists():
        raise subprocess.SubprocessError(f"rangeserver over {over} has ended with {status}, and has left its file: {file.exists()}")


def built(name, text, *libraries):
    """The program of a source in C."""
    source, program = place(f"{name}.c"), place(name)
    source.write_text(text)
    command(*CHECKED_C, source, *libraries, "-o", program)
    return program


def built_shared(name, text):
    """The same, with the shared libraries as pkg-config says."""
    return built(name, text, *asked("--cflags", "--libs", package="nolthewyr_run"))


def programs_built():
    """A program with the shared libraries, and one with the archives; libfabric itself is shared."""
    archives = "-Wl,-Bstatic", "-lnolthewyr_run", "-lnolthewyr", "-Wl,-Bdynamic"
    yield built_shared("run-shared", PROGRAM)
    yield built("run-archives", PROGRAM, *asked("--cflags", "--libs-only-L", package="nolthewyr_run"), *archives, *["-lfabric"] * over_network())


def windows_taken():
    """A program that pkg-config has linked takes windows, and is refused what it does not hold."""
    [libraries] = asked("--variable=libdir", package="nolthewyr_run")
    programs = list(programs_built())
    for number, over in enumerate(transports()):
        with serving(over) as file:
            for library, program in enumerate(programs):
                printed = run(program, file, LD_LIBRARY_PATH=libraries)
                yield case("run's program", [library, number], 1), int(printed == PRINTED)


def exported(*words):
    listed = run("nm", "--extern-only", "--defined-only", *words)
    return set(re.findall(r"^[0-9a-f]+ \w (\S+)$", listed, re.MULTILINE))


def declared_functions():
    """Both libraries export the functions that the header declares, and no others."""
    declared = set(re.findall(r"^(?!typedef).*\b(nolthewyr_run_\w+)\([^)]*\);", HEADER.read_text(), re.MULTILINE))
    libraries = prefix() / "lib"
    for place_of, names in enumerate((exported(libraries / "libnolthewyr_run.a"), exported("--dynamic", libraries / "libnolthewyr_run.so"))):
        yield case("run's exports", [place_of], (len(declared), 0)), (len(names), len(names ^ declared))


# What is asked of rangerun, the exit status, and what it says; FILE stands for the server's file.
ASKED = (
    ("FILE hold 10 20 sh -c", "exit 7", 7, ""),
    ("FILE hold 10 20 sh -c", "kill -PIPE $$", 141, ""),
    ("FILE hold --limit 1000000000 0 1024", "true", 0, ""),
    ("FILE hold 10 20", "/no/such/command", 127, "/no/such/command: No such file or directory"),
    ("FILE hold 10 20", "/", 126, "/: Permission denied"),
    ("FILE hold 10", "1025", 2, "two edges and a command are to be named"),
    ("FILE hold 10 1025", "true", 125, "[10, 1025) is no window of the units 0 to 1023"),
    ("FILE hold 10 x", "true", 2, "the right edge is not a number: x"),
    ("FILE read 10", "20", 0, ""),
    ("FILE read 10", "1025", 3, "[10, 1025) is no window of the units 0 to 1023"),
    ("FILE write 10", "x", 2, "the right edge is not a number: x"),
    ("held", "read", 3, "NOLTHEWYR_HELD is not set"),
    ("held", "hold", 2, "no such command of a window that is held (a file named held is ./held): hold"),
    ("FILE try --windows", "20", 0, ""),
    ("FILE try --windows 5 --within 900", "1025", 3, "[900, 1025) is no part of the units 0 to 1023"),
    ("FILE try --windows", "some", 2, "not the numbers that it has: some"),
    ("FILE try --number", "5", 2, "--windows is not said"),
    ("FILE tree", "", 0, ""),
    ("FILE", "burn", 2, "no such command: burn"),
    ("FILE.gone", "tree", 3, "no server has written it, or it has ended"),
    ("/dev/null", "tree", 3, "it is empty: no server has written it"),
)


def answers():
    """Each command ends with the status that its page says, and says what is wrong."""
    for number, over in enumerate(transports()):
        with serving(over) as file:
            for claim, (words, last, status, says) in enumerate(ASKED):
                line = [*(word.replace("FILE", str(file)) for word in words.split()), *[last] * (last != "")]
                ran = subprocess.run([prefix() / "bin" / "rangerun", *line], env=environment(), capture_output=True, text=True, timeout=SECONDS)
                yield case("run's answer", [number, claim], (status, 1)), (ran.returncode, int(says in ran.stderr))


def usage(program):
    """How a program is used, by its own help."""
    said = " ".join(run(prefix() / "bin" / program, "--help").split())
    return said.removeprefix("usage: ")


def synopsis(program):
    """How it is used, by its page."""
    read = " ".join(run("man", "--local-file", prefix() / "share" / "man" / "man1" / f"{program}.1", MANWIDTH="1000").split())
    return re.findall("SYNOPSIS (.*) DESCRIPTION", read)[0].replace(" ...", "...")


def pages():
    for number, program in enumerate(("rangeserver", "rangerun")):
        if usage(program) != synopsis(program):
            print(f"    its help: {usage(program)}\n    its page: {synopsis(program)}")
        yield case("run's page", [number], 1), int(usage(program) == synopsis(program))


def versions():
    [version] = asked("--modversion", package="nolthewyr_run")
    for number, program in enumerate(("rangeserver", "rangerun", "schedule")):
        yield case("program's version", [number], 1), int(run(prefix() / "bin" / program, "--version") == f"{program} {version}\n")


# What prints something; FILE stands for a server's file, and NEW for that of a server which is started. The first three have a run or
# a server to end, and are not ended by a pipe that nobody reads any more.
PRINTING = (
    "rangerun FILE try --windows 3", "rangerun FILE tree", f"rangeserver {' '.join(SETTINGS)} --over OVER NEW",
    "rangerun --help", "rangerun --version", "rangeserver --help", "rangeserver --version",
)
# Where it goes, why it cannot be written there, and of how many of these lines. Without a word it goes into such a pipe.
OUTPUTS = (">/dev/full", "No space left on device", 7), (">&-", "Bad file descriptor", 7), ("", "Broken pipe", 3)


def printed_to(output, words):
    reading, writing = os.pipe()
    os.close(reading)
    started = ["bash", "-c", f'exec env --default-signal=PIPE "$@" {output}', "bash", *words]
    try:
        return subprocess.run(started, env=environment(), stdout=writing, stderr=subprocess.PIPE, text=True, timeout=SECONDS)
    finally:
        os.close(writing)


def unwritten():
    """A program that cannot print says why, and ends with 3. A server that cannot say that it serves leaves no file."""
    for number, over in enumerate(transports()):
        with serving(over) as file:
            new = file.with_name("new")
            for place_of, (output, reason, lines) in enumerate(OUTPUTS):
                for claim, line in enumerate(PRINTING[:lines]):
                    program, *words = line.replace("FILE", str(file)).replace("OVER", over).replace("NEW", str(new)).split()
                    ran = printed_to(output, [prefix() / "bin" / program, *words])
                    says = ran.stderr == f"{program}: standard output: {reason}\n"
                    yield case("output that cannot be written", [number, claim, place_of], (3, 1, 0)), (ran.returncode, int(says), int(new.exists()))


SUITES = {
    "installed, a program takes windows by the library for runs": windows_taken,
    "installed, the library for runs exports what its header declares": declared_functions,
    "installed, rangerun answers as its page says": answers,
    "installed, the pages of rangeserver and rangerun say how they are used": pages,
    "installed, the programs have the version of the library": versions,
    "installed, rangeserver and rangerun say that they could not print": unwritten,
}
