"""Cases for `rangerun held`: a command under `rangerun FILE hold` reads and writes units of the window through the run that holds it. Calls at the
same time do not meet; what came in part is not written; and no call keeps hold from ending when its command has ended."""

import os
import re
import shlex
import subprocess
import sys
from concurrent.futures import ThreadPoolExecutor
from pathlib import Path
from signal import SIGTERM
from struct import calcsize
from tempfile import TemporaryDirectory
from time import monotonic

from compare import NAMES, case, unlike
from library import SECONDS
from model.record import Settings
from remote_runs import NETWORK, has_libfabric, memory, program, serving, unclean, without_libfabric

SETTINGS = {"memory": Settings(3, 2, 50_000, 5_000_000), NETWORK: Settings(3, 2, 20_000_000, 100_000_000)}
LEFT, RIGHT, CALLS = 100, 900, 8
WRONG_LINE, FAILED, LOST = 2, 3, 123
EACH = (RIGHT - LEFT) // CALLS
# A command that makes a request of its own, as run/held.h has it, to write the whole window; it sends so many units, each of 1, and then goes on.
CALL = """
import os, socket, struct, subprocess, sys, time
def call(units):
    requests = socket.socket(fileno=int(os.environ["NOLTHEWYR_HELD"]))
    own, other = socket.socketpair()
    socket.send_fds(requests, [struct.pack("4Q", 1, 1, 0, 0)], [other.fileno()])
    other.close()
    requests.detach()
    answer(own)
    own.sendall(struct.pack("Q", 1) * units)
    return own
def answer(own):
    found = own.recv(%d, socket.MSG_WAITALL)
    return found[24:].split(bytes(1))[0].decode() if found else "none"
""" % calcsize("3Q1000s")
# Half of the units, and then: the end; nothing while the command ends; nothing for too long, while another call waits; all, while another waits.
ENDS = "call(400); sys.exit(7)"
LEFT_BEHIND = "own = call(400)\nif os.fork() == 0: print(answer(own), flush=True); os._exit(0)\nsys.exit(7)"
TOO_LONG = "own = call(400); subprocess.run([RUN, 'held', 'read', '100', '103'], pass_fds=[int(os.environ['NOLTHEWYR_HELD'])]); print(answer(own))"
IN_TIME = ("own = call(400); other = subprocess.Popen([RUN, 'held', 'read', '100', '103'], pass_fds=[int(os.environ['NOLTHEWYR_HELD'])])\n"
           "time.sleep(0.7); own.sendall(struct.pack('Q', 1) * 400); answer(own); other.wait()")
STOPS = "call(400); print('half', flush=True); time.sleep(60)"

NAMES["units under hold"] = ("place in the list",), ("exit status", "says why", "units unlike")
NAMES["calls at the same time"] = ("over a network",), ("exit status", "that found another's units", "units unlike", "words not clean")
NAMES["units that came in part"] = ("place in the list",), ("exit status", "in time", "prints what it should", "units written")
NAMES["call beside a signal"] = (), ("exit status", "units written", "words not clean")
NAMES["call when the command has ended"] = (), ("exit status", "says why", "units written", "words not clean")
NAMES["call without a run that holds"] = ("place in the list",), ("exit status", "says why")
NAMES["server that is gone"] = (), ("exit status of the call", "it says why", "exit status of hold")


def run():
    return shlex.quote(str(program("rangerun")))


def hold(file, *command):
    return [program("rangerun"), file, "hold", str(LEFT), str(RIGHT), *command]


def held(file, *command, **options):
    """What hold came to with this command."""
    return subprocess.run(hold(file, *command), capture_output=True, text=True, timeout=SECONDS, **options)


def window(file):
    """The units of the window, of a server over shared memory."""
    return memory(file)[1][LEFT:RIGHT].tolist()


ALL = list(range(1, RIGHT - LEFT + 1))
CHANGED = [unit * 10 for unit in ALL]
AT_LAST = [*CHANGED[:-2], 5, 6]
# What the command is, with the exit status, what is said, and what is in the window then.
UNDER_HOLD = (
    ("seq 800 | RUN held write", 0, "", ALL),
    ("RUN held read | sed s/$/0/ | RUN held write", 0, "", CHANGED),
    ("RUN held read --binary 100 103 | od -A n -t u8", 0, "                   10                   20\n                   30\n", CHANGED),
    ("printf '\\5\\0\\0\\0\\0\\0\\0\\0\\6\\0\\0\\0\\0\\0\\0\\0' | RUN held write --binary 898 900", 0, "", AT_LAST),
    ("RUN held read 99 101", FAILED, "held: 2 units from 99 on are not in a window that is held", AT_LAST),
    ("echo 1 2 | RUN held write 899 901", FAILED, "held: 2 units from 899 on are not in a window that is held", AT_LAST),
    ("RUN held read 0 18446744073709551615", FAILED, "held: 18446744073709551615 units from 0 on are not in a window that is held", AT_LAST),
    ("RUN held read 200 200", FAILED, "held: the left edge is not below the right edge", AT_LAST),
    ("echo 1 2 | RUN held write", FAILED, "2 units, where [100, 900) has 800; nothing is written", AT_LAST),
    ("echo 1 2 3 | RUN held write 100 102", FAILED, "3 units, where [100, 102) has 2; nothing is written", AT_LAST),
    ("echo 1 x | RUN held write 100 102", FAILED, "line 1: not a number below 2^64", AT_LAST),
    ("RUN held read > /dev/full", FAILED, "standard output: No space left on device", AT_LAST),
    ("RUN held read --limit 1s", WRONG_LINE, "no such option, or no time behind it: --limit", AT_LAST),
    ("RUN held tree", WRONG_LINE, "no such command of a window that is held", AT_LAST),
    ("RUN held read 899 900; exit 9", 9, "6\n", AT_LAST),
)


def commands():
    """One command after another, each under a hold of its own."""
    with serving("memory", SETTINGS["memory"]) as file:
        for place, (command, status, says, units) in enumerate(UNDER_HOLD):
            ran = held(file, "sh", "-c", command.replace("RUN", run()))
            says_so = says in ran.stderr + ran.stdout and (status in (FAILED, WRONG_LINE) or not ran.stderr)
            yield case("units under hold", [place], (status, 1, 0)), (ran.returncode, int(says_so), unlike(window(file), units))


def at_once(over):
    """So many calls at a time, each of which writes its number into units of its own, and reads them back."""
    parts = range(LEFT, RIGHT, EACH)
    each = "yes {0} | head -n {1} | {2} held write {0} {3} && {2} held read {0} {3} | sort -u > {0} &"
    lines = "\n".join([*(each.format(left, EACH, run(), left + EACH) for left in parts), "wait"])
    with serving(over, SETTINGS[over]) as file, TemporaryDirectory() as folder:
        ran = held(file, "sh", "-c", lines, cwd=folder)
        mixed = sum(Path(folder, str(left)).read_text() != f"{left}\n" for left in parts)
        read = subprocess.run([program("rangerun"), file, "read", str(LEFT), str(RIGHT)], capture_output=True, text=True, timeout=SECONDS)
        status = unclean(file)
    expected = [str(left) for left in parts for _ in range(EACH)]
    answer = ran.returncode, mixed, unlike(read.stdout.split(), expected), status
    yield case("calls at the same time", [int(over == NETWORK)], (0, 0, 0, 0)), answer


def at_once_over_memory():
    return at_once("memory")


def at_once_over_network():
    return at_once(NETWORK) if has_libfabric() else without_libfabric()


def caller(lines):
    return sys.executable, "-c", f"{CALL}RUN = {str(program('rangerun'))!r}\n{lines}"


# What a call does that has sent half of its units, with the exit status of hold, the most seconds, what is printed, and how many are written.
IN_PART = (
    (ENDS, 7, 4, "", 0),
    (LEFT_BEHIND, 7, 4, "none came for 5 seconds, or the command has ended: nothing is written\n", 0),
    (TOO_LONG, 0, 15, "0\n0\n0\nnone came for 5 seconds, or the command has ended: nothing is written\n", 0),
    (IN_TIME, 0, 4, "1\n1\n1\n", RIGHT - LEFT),
)


def sent_in_part(lines):
    """The exit status of hold, the seconds that it took, what was printed, and the sum of the units."""
    with serving("memory", SETTINGS["memory"]) as file:
        begun = monotonic()
        ran = held(file, *caller(lines))
        return ran.returncode, monotonic() - begun, ran.stdout, sum(memory(file)[1])


def in_part():
    with ThreadPoolExecutor() as pool:
        ended = list(pool.map(sent_in_part, [lines for lines, *_ in IN_PART]))
    for place, ((_, status, seconds, prints, written), (found, took, printed, units)) in enumerate(zip(IN_PART, ended)):
        yield case("units that came in part", [place], (status, 1, 1, written)), (found, int(took < seconds), int(printed == prints), units)


def beside_signal():
    """A signal to hold is handed on to its command, also while hold waits for the units of a call."""
    with serving("memory", SETTINGS["memory"]) as file:
        with subprocess.Popen(hold(file, *caller(STOPS)), stdout=subprocess.PIPE) as holder:
            holder.stdout.readline()
            holder.send_signal(SIGTERM)
            status = holder.wait(SECONDS)
        yield case("call beside a signal", [], (128 + SIGTERM, 0, 0)), (status, sum(memory(file)[1]), unclean(file))


def begun(file, folder, command):
    """A hold whose command is a shell's, and waits for a line in `go` where it reads one."""
    os.mkfifo(Path(folder, "go"))
    words = hold(file, "sh", "-c", command.replace("RUN", run()))
    return subprocess.Popen(words, stdout=subprocess.PIPE, stderr=subprocess.PIPE, text=True, cwd=folder)


def went_on(holder, folder):
    """What it printed and said at last."""
    Path(folder, "go").write_text("\n")
    return holder.communicate(timeout=SECONDS)


def ended():
    """A process that its command has left behind calls when hold has ended."""
    with serving("memory", SETTINGS["memory"]) as file, TemporaryDirectory() as folder:
        with begun(file, folder, "(read _ < go; seq 800 | RUN held write; echo $?) &") as holder:
            holder.wait(SECONDS)
            printed, said = went_on(holder, folder)
        says = int("hold serves no more calls: its command has ended, or hold was killed" in said)
        yield case("call when the command has ended", [], (FAILED, 1, 0, 0)), (int(printed), says, sum(memory(file)[1]), unclean(file))


# What NOLTHEWYR_HELD is, and what is said.
ALONE = (
    (None, "NOLTHEWYR_HELD is not set: this is for the command of `rangerun FILE hold`; a file named held is ./held"),
    ("some", "NOLTHEWYR_HELD is no number of a descriptor"),
    ("0", "is not that of hold"), ("77", "is not that of hold"),
)


def alone():
    for place, (number, says) in enumerate(ALONE):
        kept = {name: value for name, value in os.environ.items() if name != "NOLTHEWYR_HELD"}
        environment = kept if number is None else {**kept, "NOLTHEWYR_HELD": number}
        ran = subprocess.run([program("rangerun"), "held", "read"], env=environment, capture_output=True, text=True, timeout=SECONDS)
        yield case("call without a run that holds", [place], (FAILED, 1)), (ran.returncode, int(says in ran.stderr))


def server_gone():
    """The call is told what the run that holds found, and so is who started hold."""
    if not has_libfabric():
        yield from without_libfabric()
        return
    with TemporaryDirectory() as folder:
        with serving(NETWORK, SETTINGS[NETWORK]) as file:
            holder = begun(file, folder, "echo held; read _ < go; RUN held read; echo $?")
            holder.stdout.readline()
        printed, said = went_on(holder, folder)
    says = int(re.search(rf"held: the server at 127\.0\.0\.1 port \d+ over {NETWORK} .*, in phase 9 \(.*\) of \[100, 900\)", said) is not None)
    yield case("server that is gone", [], (FAILED, 1, LOST)), (int(printed), says, holder.returncode)


SUITES = {
    "units under hold, one command after another": commands,
    "units under hold, calls at the same time over shared memory": at_once_over_memory,
    "units under hold, calls at the same time over tcp;ofi_rxm": at_once_over_network,
    "units under hold that came in part": in_part,
    "units under hold, and a signal": beside_signal,
    "units under hold, when the command has ended": ended,
    "units under hold, without a run that holds": alone,
    "units under hold, when the server is gone": server_gone,
}
