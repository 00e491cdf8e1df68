"""Cases for runs on a memory server. Each run takes windows of all sizes, writes its number into every unit that it holds, reads all of them
back, and counts those that are another's: torn rows. There are none; with a rule left out there are; and a run that is killed while it holds
keeps its units."""

import subprocess
from contextlib import ExitStack
from time import monotonic, sleep

from compare import NAMES, case
from library import SECONDS
from model.record import Settings
from remote_runs import NETWORK, has_libfabric, memory, run_in_part, running, serving, taken, tried, unclean, without_libfabric

PROCESSES = 4
# The tree in which a run is killed, and its number.
LEVELS, NUMBER = 4, 9
# Nanoseconds, as short as the waits are so that claims are late now and then.
OVER_MEMORY, OVER_NETWORK = Settings(5, 2, 3_000, 60_000), Settings(5, 2, 500_000, 10_000_000)
BRIEF_HOLD = "20000"
# A pause of 2 ms is within the one wait and over the other. What is held is held for 1 ms.
LONG_WAIT, SHORT_WAIT = Settings(3, 2, 10_000_000, 100_000_000), Settings(3, 2, 200_000, 50_000_000)
PAUSE, HOLD = "2000000", "1000000"
# A rule, and whether units are torn without it. With the short wait each pause makes a claim late, unless that is left out.
LEFT_OUT = ("none", LONG_WAIT, 0), ("wait", LONG_WAIT, 1), ("none", SHORT_WAIT, 0), ("late", SHORT_WAIT, 1), ("climb", SHORT_WAIT, 1)

NAMES["runs of a memory server"] = ("over a network",), ("windows", "torn", "runs that failed", "words not clean")
NAMES["late claims of these runs"] = (), ("some",)
NAMES["runs with a rule left out"] = ("place in the list",), ("torn", "runs that failed", "words not clean")
NAMES["late claims after pauses"] = ("place in the list",), ("some",)
NAMES["run that is killed"] = (), ("has words", "a word is not clean", "words changed by its end", "units changed by its end")
NAMES["runs beside it"] = (), ("that wait for its units", "windows taken elsewhere", "torn", "runs that failed")
NAMES["what it has at last"] = (), ("words changed", "units changed", "a word is not clean")


def torn_rows(over, settings, windows):
    """No unit is another's, all runs end well, and the tree is clean at last. How many claims were late is said."""
    with serving(over, settings) as file:
        ran = tried(file, PROCESSES, windows, "--hold", BRIEF_HOLD)
        status = unclean(file)
    counts, network = ran.counts, int(over == NETWORK)
    print(f"    over {over}, T {settings.wait} ns: {counts['late']:.0f} late and {counts['out-of-patience']:.0f} out of patience"
          f" beside {counts['windows']:.0f} windows, {counts['round-trips']:.0f} round trips, {counts['dropped']:.0f} reads dropped")
    yield case("runs of a memory server", [network], (windows, 0, 0, 0)), (counts["windows"], counts["torn"], ran.failed, status)
    if not network:
        yield case("late claims of these runs", [], 1), int(counts["late"] > 0)


def over_memory():
    return torn_rows("memory", OVER_MEMORY, 20_000)


def over_network():
    if has_libfabric():
        yield from torn_rows(NETWORK, OVER_NETWORK, 2_000)
    else:
        yield from without_libfabric()


def left_out():
    """With the wait or the late test left out, or a leaf claimed whatever its climb finds, units are torn; with the same pauses and none left out
    they are not."""
    for place, (rule, settings, torn) in enumerate(LEFT_OUT):
        with serving("memory", settings) as file:
            ran = tried(file, PROCESSES, 400, "--within", "0", "512", "--hold", HOLD, run=run_in_part(), LEFT_OUT=rule, PAUSE=PAUSE)
            status = unclean(file)
        print(f"    left out: {rule}; T {settings.wait} ns: {ran.counts['torn']:.0f} units torn and {ran.counts['late']:.0f} claims late"
              f" beside {ran.counts['windows']:.0f} windows")
        yield case("runs with a rule left out", [place], (torn, 0, 0)), (int(ran.counts["torn"] > 0), ran.failed, status)
        if settings == SHORT_WAIT:
            yield case("late claims after pauses", [place], int(rule != "late")), int(ran.counts["late"] > 0)


def units_of(file, number):
    """The units in which a number stands, when it stands in some and no more come."""
    found, end = [], monotonic() + SECONDS
    while monotonic() < end:
        sleep(0.1)
        before, found = found, [unit for unit, written in enumerate(memory(file)[1]) if written == number]
        if found and found == before:
            return found
    raise subprocess.SubprocessError(f"no run has written {number}")


def has(file):
    """What a killed run still has: of the words, and the units with its number."""
    return taken(LEVELS, memory(file)[0]), units_of(file, NUMBER)


def changed(before, after):
    """How many words are others than before, and whether the units are."""
    (words, units), (words_now, units_now) = before, after
    return sum(words.get(node) != words_now.get(node) for node in words | words_now), int(units != units_now)


def waiting(file, units):
    """How many of the runs wait that want the first or the last of the units, or all around them, while others take windows elsewhere; and
    what these came to. They wait for a second more, and are ended."""
    windows = (units[0], units[0] + 1), (units[-1], units[-1] + 1), (0, 1024)
    with ExitStack() as runs:
        wanting = [runs.enter_context(running(file, "hold", str(left), str(right), "true")) for left, right in windows]
        ran = tried(file, 2, 400, "--within", "1024", "2048")
        sleep(1)
        return sum(process.poll() is None for process in wanting), ran


def killed():
    """A run is killed that holds units within [100, 500). Runs that want a part of them wait, and others do not; what it had stays its own."""
    with serving("memory", Settings(LEVELS, 2, 50_000, 5_000_000)) as file:
        with running(file, "try", "--windows", "1", "--number", str(NUMBER), "--within", "100", "500", "--hold", "60000000000") as holder:
            units = units_of(file, NUMBER)
            had = has(file)
            holder.kill()
            holder.wait()
        yield case("run that is killed", [], (1, 1, 0, 0)), (int(len(had[0]) > 0), unclean(file), *changed(had, has(file)))
        still, ran = waiting(file, units)
        yield case("runs beside it", [], (3, 400, 0, 0)), (still, ran.counts["windows"], ran.counts["torn"], ran.failed)
        yield case("what it has at last", [], (0, 0, 1)), (*changed(had, has(file)), unclean(file))


SUITES = {
    "runs over shared memory, torn rows": over_memory,
    "runs over tcp;ofi_rxm, torn rows": over_network,
    "runs with a rule left out, torn rows": left_out,
    "a run killed while it holds": killed,
}
