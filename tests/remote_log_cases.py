"""Cases for what a server over a network says of its runs: each that opens, closes or goes without closing, with the address of its connection;
on standard error alone, and nothing if it is to be quiet."""

import os
import re
import subprocess
from pathlib import Path

from compare import NAMES, case
from library import SECONDS
from remote_runs import NETWORK, has_libfabric, program, without_libfabric
from remote_servers import SETTINGS, Run, asked, awaited, server, until

LINE = re.compile(r"rangeserver: \d{4}-\d\d-\d\dT\d\d:\d\d:\d\d (127\.0\.0\.\d+:\d+): (\S.*?): process (\d+) \(rangerun\) on \S+(: .*)?")
RUNS = 4
GONE = ": if it held a window, that stays taken"

NAMES["log of runs that close"] = (), ("runs that opened", "closed", "at other addresses", "lines that are none of these")
NAMES["log of a run that is killed"] = ("how it is ended",), ("lines of it", "its last says so", "at another address")
NAMES["standard output of a server"] = ("quiet",), ("bytes",)
NAMES["descriptors of the command of hold"] = (), ("own", "sockets", "server's file", "others of the run")
NAMES["run over shm that is killed"] = (), ("files that it has", "is said to be gone", "its files are removed")
NAMES["quiet server"] = (), ("status of a run", "bytes on standard error")


def lines(at):
    """The address, the process, what it did and why, of each line; all None for one that is no such line."""
    found = (LINE.fullmatch(line) for line in at.log.splitlines())
    return [(one[1], int(one[3]), one[2], one[4] or "") if one else (None,) * 4 for one in found]


def closed_all(at):
    """Runs that do this and that, one after another, and at last two at once."""
    runs = [Run(at.file, *words) for words in (("tree",), ("read", "0", "10"), ("hold", "0", "10", "true"), ("try", "--windows", "3"))]
    for run in runs:
        run.ended()
    awaited(lambda: at.log.count(": closed: ") >= RUNS, "runs that have closed")
    said = lines(at)
    opened, closed = ({process: address for address, process, what, why in said if what == did and not why} for did in ("opened", "closed"))
    pids = {run.process.pid for run in runs}
    unlike = sum(opened.get(pid) is None or opened.get(pid) != closed.get(pid) for pid in pids)
    return len(pids & set(opened)), len(pids & set(closed)), unlike, len(said) - 2 * RUNS


def killed(at, how):
    """A run that holds and is ended so. What the log has of it: how many lines, and whether they say so, at one address."""
    with Run(at.file, "hold", "0", "100", "cat") as holds:
        holds.holds()
        how(holds)
        awaited(lambda: len([line for line in lines(at) if line[1] == holds.process.pid]) > 1, "a second line of a run")
    return [line for line in lines(at) if line[1] == holds.process.pid]


def logged():
    with server(NETWORK) as at:
        yield case("log of runs that close", [], (RUNS, RUNS, 0, 0)), closed_all(at)
        for place, (how, last) in enumerate(((lambda run: run.let_go(), ("closed", "")), (lambda run: run.process.kill(), ("gone without closing", GONE)))):
            of_run = killed(at, how)
            answer = len(of_run), int(of_run[-1][2:] == last), int(of_run[0][0] != of_run[-1][0])
            yield case("log of a run that is killed", [place], (2, 1, 0)), answer
        at.terminate()
        yield case("standard output of a server", [0], 0), len(at.process.stdout.read())


def quiet():
    """Whatever runs do, and when it ends."""
    with server(NETWORK, None, "--quiet") as at:
        ran = asked(at.file, "hold", "0", "10", "true")
        with Run(at.file, "hold", "0", "10", "cat") as holds:
            holds.holds()
        until(lambda: at.log, 0.5)
        at.terminate()
        yield case("quiet server", [], (0, 0)), (ran.status, len(at.log))
        yield case("standard output of a server", [1], 0), len(at.process.stdout.read())


def command_files():
    """The command of hold has the descriptors that hold was started with, and of the run only those that are meant for it: the server's file, and
    the socket of `rangerun held`. With the run's connection it would keep from the server that the run is gone."""
    reading, writing = os.pipe()
    with server(NETWORK) as at:
        line = [program("rangerun"), at.file, "hold", "0", "10", "ls", "-l", "/proc/self/fd"]
        listed = subprocess.run(line, pass_fds=[reading], capture_output=True, text=True, timeout=SECONDS).stdout
    os.close(reading)
    os.close(writing)
    own = len(re.findall(rf" {reading} -> pipe:", listed))
    yield case("descriptors of the command of hold", [], (1, 1, 1, 0)), (own, listed.count("socket:"), listed.count(f"{at.file}\n"), listed.count("anon_inode"))


def left_over_shm():
    """Over shm the provider leaves a file of a process that is killed. The server says that it is gone, and removes it."""
    with server("shm", SETTINGS[NETWORK]) as at:
        with Run(at.file, "hold", "0", "100", "cat") as holds:
            holds.holds()
            before = len(list(Path("/dev/shm").glob(f"{holds.process.pid}:*")))
        gone = until(lambda: f"gone without closing: process {holds.process.pid} (rangerun)" in at.log)
        removed = until(lambda: not list(Path("/dev/shm").glob(f"{holds.process.pid}:*")))
        yield case("run over shm that is killed", [], (1, 1, 1)), (before, int(gone), int(removed))


def over_network(check):
    return check if has_libfabric() else without_libfabric


SUITES = {
    "what a server says of its runs": over_network(logged),
    "a server that is to be quiet": over_network(quiet),
    "what the command of hold has open": over_network(command_files),
    "what a killed run leaves over shm": over_network(left_over_shm),
}
