"""Cases for docs/REMOTE.md: the commands of its example, and those that start and stop a server, are run as they stand there, and its lines of
C in a program around them."""

import os
import re
import shlex
import socket
import subprocess
from contextlib import contextmanager
from pathlib import Path
from tempfile import TemporaryDirectory

from compare import NAMES, case, unlike
from library import ROOT, SECONDS
from remote_runs import build_with_run, has_libfabric, memory, program, unclean, without_libfabric


def section(heading):
    """The text below a heading of docs/REMOTE.md, up to the next one as high."""
    high = heading.split()[0]
    return (ROOT / "docs" / "REMOTE.md").read_text().split(f"\n{heading}\n")[1].split(f"\n{high} ")[0]


SECTION = section("## By example")
WRITTEN = 7
PROGRAM = """#include <stdbool.h>
#include <stdio.h>
#include "nolthewyr_run.h"

static uint64_t forecast[8192];

static int stop(const char *reason)
{
    fprintf(stderr, "%%s\\n", reason);
    return 1;
}

int main(void)
{
    char error[400];
    for (int unit = 0; unit < 8192; unit++)
        forecast[unit] = %d;
%s}
"""

NAMES["example in docs/REMOTE.md"] = (), ("exit status", "bytes on standard error", "lines unlike those shown")
NAMES["starting and stopping in docs/REMOTE.md"] = (), ("exit status", "units unlike those saved", "openings in the log")
NAMES["server that was killed in docs/REMOTE.md"] = (), ("exit status", "units unlike those written")
NAMES["example in C in docs/REMOTE.md"] = (), ("exit status", "units of the window not written", "units written elsewhere")
NAMES["example in C in docs/REMOTE.md whose write is refused"] = (), ("exit status", "says why", "exit status of rangerun tree")


def block(language):
    """The one block of a language in the section."""
    [found] = re.findall(rf"```{language}\n(.*?)```", SECTION, re.DOTALL)
    return found


def environment():
    """That of the tests, in which the programs are found by their names."""
    folders = {program(name).parent for name in ("rangeserver", "rangerun")}
    return {**os.environ, "PATH": os.pathsep.join([*map(str, folders), os.environ["PATH"]])}


@contextmanager
def served(folder):
    """Starts the server of the example in a folder, in which its file is then, and gives the commands of the runs."""
    server, *runs = re.findall(r"^    (range\w+ .*)$", SECTION, re.MULTILINE)
    with subprocess.Popen(shlex.split(server), cwd=folder, stdout=subprocess.PIPE, env=environment(), text=True) as serving:
        try:
            serving.stdout.readline()
            yield runs
        finally:
            serving.terminate()


def but_for_counts(text):
    """The lines of a text, without what a run counts that may be another number each time: all but its windows, and the units that were torn."""
    return re.sub(r"(?<=late ).*", "", text).splitlines()


def commands():
    """The commands, one after another, print what is shown below them."""
    with TemporaryDirectory() as folder, served(folder) as runs:
        script = ["bash", "-e", "-c", "\n".join(runs)]
        ran = subprocess.run(script, cwd=folder, env=environment(), capture_output=True, text=True, timeout=SECONDS)
    lines_unlike = unlike(but_for_counts(block("text")), but_for_counts(ran.stdout))
    yield case("example in docs/REMOTE.md", [], (0, 0, 0)), (ran.returncode, len(ran.stderr), lines_unlike)


def lines_of(heading):
    """The commands below a heading."""
    return re.findall(r"^    (\S.*)$", section(heading), re.MULTILINE)


def free_port():
    with socket.socket() as tried:
        tried.bind(("127.0.0.1", 0))
        return tried.getsockname()[1]


def units_unlike(folder, name, count):
    """How many of the units that were saved are not 1, 2, 3 and so on."""
    return unlike([str(unit) for unit in range(1, count + 1)], Path(folder, name).read_text().splitlines())


def in_shell(folder, *lines):
    """Runs the lines one after another, up to the first that fails; no server is left then."""
    script = "\n".join(["trap 'kill $(jobs -p) 2> /dev/null || true' EXIT", *lines])
    return subprocess.run(["bash", "-e", "-c", script], cwd=folder, env=environment(), capture_output=True, text=True, timeout=SECONDS)


def begun(start):
    """Starts a server by this line, and waits until it serves."""
    return "rm -f served", f"{{ {start} }} > served", "until [ -s served ]; do sleep 0.01; done"


def stopped_and_started():
    """A server is started, its table saved, the server stopped and started anew, and the table loaded, as the page says, at another address and
    port. The log has the opening of each of the four runs."""
    if not has_libfabric():
        yield from without_libfabric()
        return
    start, _, save, stop, load = lines_of("## Starting and stopping")
    started, ended = begun(start.replace("10.0.0.7", "127.0.0.1").replace("7800", str(free_port())) + ";"), (stop, "wait")
    fill, look = "seq 65536 | rangerun table.server write", "rangerun table.server read > table.loaded"
    with TemporaryDirectory() as folder:
        ran = in_shell(folder, *started, fill, save, *ended, *started, load, look, *ended)
        changed = sum(units_unlike(folder, name, 65536) for name in ("table.saved", "table.loaded"))
        opened = re.findall(r"^rangeserver: \S+ 127\.0\.0\.1:\d+: opened: ", Path(folder, "table.log").read_text(), re.MULTILINE)
    yield case("starting and stopping in docs/REMOTE.md", [], (0, 0, 4)), (ran.returncode, changed, len(opened))


def killed_over_memory():
    """The units of a server over shared memory that was killed are copied as the page says, and loaded into the next one."""
    [start, *_], [copy] = lines_of("## By example"), lines_of("### A server that was killed, over memory")
    started = begun(start + " &")
    written = "seq 65536 | rangerun table.server write", "kill -KILL $!", "! wait $!", copy
    loaded = "rangerun table.server write --binary < table.saved", "rangerun table.server read > table.loaded", "kill $!", "wait $!"
    with TemporaryDirectory() as folder:
        ran = in_shell(folder, *started, *written, *started, *loaded)
        changed = units_unlike(folder, "table.loaded", 65536)
    yield case("server that was killed in docs/REMOTE.md", [], (0, 0)), (ran.returncode, changed)


def ran_in_c(folder, lines):
    """How a program of these lines of C ended, beside the server of the example."""
    source = Path(folder, "example.c")
    source.write_text(PROGRAM % (WRITTEN, lines))
    build_with_run(source.with_suffix(""), source)
    return subprocess.run([source.with_suffix("")], cwd=folder, stderr=subprocess.PIPE, text=True, timeout=SECONDS)


def in_c():
    """The lines of C write every unit of the window, and no other."""
    lines = block("c")
    [(left, right)] = re.findall(r"nolthewyr_run_take\(run, (\d+), (\d+),", lines)
    with TemporaryDirectory() as folder, served(folder):
        ran, units = ran_in_c(folder, lines), memory(Path(folder, "table.server"))[1]
    window = units[int(left):int(right)]
    missing, elsewhere = len(window) - window.count(WRITTEN), units.count(WRITTEN) - window.count(WRITTEN)
    yield case("example in C in docs/REMOTE.md", [], (0, 0, 0)), (ran.returncode, missing, elsewhere)


def in_c_refused():
    """If the write is refused, here since it begins before the window, the lines of C leave nothing taken."""
    lines, replaced = re.subn(r"(?<=nolthewyr_run_write\(run, )\d+", lambda first: str(int(first[0]) - 1), block("c"))
    with TemporaryDirectory() as folder, served(folder):
        ran, left = ran_in_c(folder, lines), unclean(Path(folder, "table.server"))
    says = replaced == 1 and "are not in a window that is held" in ran.stderr
    yield case("example in C in docs/REMOTE.md whose write is refused", [], (1, 1, 0)), (ran.returncode, int(says), left)


SUITES = {
    "docs/REMOTE.md, the commands of its example": commands,
    "docs/REMOTE.md, a table saved and loaded": stopped_and_started,
    "docs/REMOTE.md, units of a server that was killed": killed_over_memory,
    "docs/REMOTE.md, its example in C": in_c,
    "docs/REMOTE.md, its example in C leaves nothing taken when it fails": in_c_refused,
}
