"""Cases for a run that waits: it says for what, if somebody looks on, and when it has given up but stands in a line; it asks the server seldom;
and it has its window soon after that was given back."""

import os
import pty
from contextlib import ExitStack
from select import select
from signal import SIGTERM
from subprocess import PIPE, Popen
from time import monotonic, sleep

from compare import NAMES, case
from library import SECONDS
from remote_runs import NETWORK, counted, has_libfabric, program, without_libfabric
from remote_servers import Run, awaited, says, server, until

# Windows that others hold: a node above the leaves, and a part of a leaf.
HELD = ("0", "1024"), ("2000", "2010")
# Windows that are wanted then, and what is said of them. The last two stay in a line or at their node when they are killed.
WANTED = (
    (("2005", "2015"), "another run has a window among the units 1984 to 2047"),
    (("10", "20"), "another run has a window among the units 0 to 1023"),
    (("0", "1024"), "it stands in the line at node 2, of the units 0 to 1023, with "),
    (("0", "4096"), "another run has a part of the units "),
)
GIVEN_UP = "[0, 1024) is given up, but the run cannot end yet: it stands in the line at node 2, of the units 0 to 1023, with ", "SIGKILL ends this one"
# Runs that wait for so many seconds. Pauses of 25 ms on the average are 40 looks a second, and at first there are some more; at a leaf each look is
# two round trips.
RUNS, WAITED, LOOKS, AT_FIRST = 10, 3, 40, 200
# Times that a run waits for a window of a leaf, each of some seconds, and the most seconds from which on it has it too late.
TIMES, BRIEFLY, LATE = 3, 0.4, 0.5

NAMES["take that cannot end"] = ("by a signal",), ("says so in time", "goes on")
NAMES["for what a run waits"] = ("place in the list",), ("said", "not before a second", "said without -v")
NAMES["for what a run waits, to a terminal"] = (), ("said",)
NAMES["runs that wait"] = ("below a node",), ("that have ended", "with too many round trips", "torn")
NAMES["window that is given back"] = (), ("had soon",)


def killed_holder(at, left, right):
    with Run(at.file, "hold", left, right, "cat") as holds:
        holds.holds()


def cannot_end():
    """Behind a run that was killed, at the same node: neither a limit nor a signal ends a run that stands in its line."""
    with server("memory") as at:
        killed_holder(at, "0", "1024")
        with Run(at.file, "hold", "--limit", "200ms", "0", "1024", "true") as limited, Run(at.file, "hold", "-v", "0", "1024", "true") as signalled:
            awaited(lambda: "it stands in the line" in signalled.said, "a run in the line")
            signalled.process.send_signal(SIGTERM)
            for by_signal, run in enumerate((limited, signalled)):
                said = until(lambda: "given up" in run.said, 4) and says(run.said, *GIVEN_UP)
                yield case("take that cannot end", [by_signal], (1, 1)), (int(said), run.goes_on())


def told(at, wanted, others):
    """Of runs that want these windows, and others that want theirs without -v: whether what is said is what it should be, whether it is not said
    before a second, and how much is said without."""
    with ExitStack() as runs:
        pairs = [(runs.enter_context(Run(at.file, "hold", "-v", *window, "true")), runs.enter_context(Run(at.file, "hold", *other, "true")))
                 for (window, _), (other, _) in zip(wanted, others)]
        for (loud, quiet), ((left, right), said) in zip(pairs, wanted):
            is_told = until(lambda: f"[{left}, {right}) is waited for: {said}" in loud.said, 5)
            seconds = monotonic() - loud.begun
            until(lambda: monotonic() - quiet.begun > 1.2)
            yield int(is_told), int(seconds >= 1), len(quiet.said)


def waits_for():
    """With -v, and without, where nobody looks on. Who wants all units comes last and alone: it keeps others from theirs, and two of them would
    stand in line."""
    with server("memory") as at, ExitStack() as runs:
        for window in HELD:
            runs.enter_context(Run(at.file, "hold", *window, "cat")).holds()
        for place, answer in enumerate([*told(at, WANTED[:-1], WANTED), *told(at, WANTED[-1:], WANTED)]):
            yield case("for what a run waits", [place], (1, 1, 0)), answer


def waits_for_at_terminal():
    """Without -v, where standard error is a terminal."""
    with server("memory") as at, Run(at.file, "hold", "0", "100", "cat") as holds:
        holds.holds()
        above, below = pty.openpty()
        with Popen([program("rangerun"), at.file, "hold", "50", "60", "true"], stdout=PIPE, stderr=below) as waits:
            os.close(below)
            readable = select([above], [], [], 5)[0]
            is_told = says(os.read(above, 1000).decode() if readable else "", "[50, 60) is waited for: another run has a window among the units 0 to 63")
            waits.terminate()
            waits.wait(SECONDS)
        os.close(above)
    yield case("for what a run waits, to a terminal", [], 1), is_told


def seldom():
    """Runs that wait over a network, half of them for a unit of a leaf, and half below a node that is held."""
    with server(NETWORK) as at, ExitStack() as runs:
        holds = [runs.enter_context(Run(at.file, "hold", *window, "cat")).holds() for window in (("0", "64"), ("1024", "2048"))]
        waits = [runs.enter_context(Run(at.file, "try", "--windows", "1", "--number", str(number + 1), "--within", str(unit), str(unit + 1)))
                 for number, unit in enumerate((10, 1030) * (RUNS // 2))]
        for run in waits:
            at.has_opened(run)
        sleep(WAITED)
        for run in holds:
            run.let_go()
        counts = [counted(run.ended().printed) for run in waits]
    print(f"    {RUNS} runs that waited for {WAITED} s and more: {[int(count['round-trips']) for count in counts]} round trips")
    for below in (0, 1):
        mine = counts[below::2]
        many = sum(count["round-trips"] > (2 - below) * (LOOKS * count["seconds"] + AT_FIRST) for count in mine)
        yield case("runs that wait", [below], (RUNS // 2, 0, 0)), (sum(count["windows"] for count in mine), many, sum(count["torn"] for count in mine))


def seconds_until_had(at):
    """From when a window is given back until the command of a run that waited for it runs."""
    with Run(at.file, "hold", "0", "64", "cat") as holds:
        holds.holds()
        with Run(at.file, "hold", "10", "20", "cat") as waits:
            sleep(BRIEFLY)
            begun = monotonic()
            holds.let_go()
            waits.holds()
            had = monotonic() - begun
            waits.let_go()
            waits.ended()
            holds.ended()
    return had


def soon():
    """At least once, since the machine may have other work."""
    with server(NETWORK if has_libfabric() else "memory") as at:
        had = [seconds_until_had(at) for _ in range(TIMES)]
    print(f"    a window had {', '.join(f'{seconds:.3f}' for seconds in had)} s after it was given back")
    yield case("window that is given back", [], 1), int(min(had) < LATE)


SUITES = {
    "a run that has given up and cannot end": cannot_end,
    "for what a run waits": waits_for,
    "for what a run waits, to a terminal": waits_for_at_terminal,
    "runs that wait ask seldom": seldom if has_libfabric() else without_libfabric,
    "a window is had soon after it is given back": soon,
}
