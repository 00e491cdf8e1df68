"""Cases for the round trips of one run alone on a memory server: by lists a leaf needs 3 to be taken and 1 to be given back at every height, an inner
node 2, its wait, 1 for the check, and 1 back, and two pieces as many as both, and 1 back. One at a time each operation is a round trip."""

from compare import NAMES, case
from model import tree
from model.record import Settings
from remote_runs import NETWORK, has_libfabric, serving, unclean, without_libfabric
from remote_trips import ALL, ONE, WAIT, WINDOWS, trips, windows_of

# By the name of the window.
BY_LISTS = {"leaf": (3, 1), "inner node": (3, 1), "two leaves": (6, 1), "leaf and inner node": (6, 1)}
# Higher trees have too many units for shared memory in a test; over a network none is touched, and a connection takes its time.
OVER_MEMORY = [(levels, tree.DISTANCES[levels % len(tree.DISTANCES)]) for levels in range(2, 9)]
OVER_NETWORK = [(2, 1), (6, 2), (12, 1), (12, 4)]
TIMES = 2
# More than a count of tickets has before it begins anew, 2^15, and more than one of notices, 2^16; and a wait of few nanoseconds.
TICKETS, NOTICES, SHORT_WAIT = 33_000, 66_000, 20_000

NAMES["round trips by lists"] = ("over a network", "levels", "distance", "window"), ("first taken", "back", "taken again", "back")
NAMES["round trips one at a time"] = ("over a network", "levels", "distance", "window"), ("fewer or more than operations",)

NAMES["counts that begin anew"] = ("window",), ("times taken", "times that needed other round trips", "a word is not clean")


def counted(over, levels, distance):
    network, windows = int(over == NETWORK), windows_of(levels)
    with serving(over, Settings(levels, distance, WAIT, 20 * WAIT)) as file:
        by_lists, alone = (trips(file, most, TIMES, windows.values()) for most in (ALL, ONE))
    for place, name in enumerate(windows):
        found = tuple(number for one in by_lists[place] for number in (one.taken, one.back))
        yield case("round trips by lists", [network, levels, distance, place], TIMES * BY_LISTS[name]), found
        more = sum(abs(one.taken + one.back - one.operations) for one in alone[place][1:])
        yield case("round trips one at a time", [network, levels, distance, place], 0), more


def over_memory():
    for levels, distance in OVER_MEMORY:
        yield from counted("memory", levels, distance)


def over_network():
    if not has_libfabric():
        yield from without_libfabric()
        return
    for levels, distance in OVER_NETWORK:
        yield from counted(NETWORK, levels, distance)


def begun_anew():
    """The root has one ticket after another, and then one notice after another, until the counts have begun anew."""
    with serving("memory", Settings(2, 1, SHORT_WAIT, 20 * SHORT_WAIT)) as file:
        for place, (name, times) in enumerate((("inner node", TICKETS), ("leaf", NOTICES))):
            [found] = trips(file, ALL, times, [WINDOWS[name]])
            others = sum((one.taken, one.back) != BY_LISTS[name] for one in found[1:])
            yield case("counts that begin anew", [place], (times, 0, 0)), (len(found), others, unclean(file))


SUITES = {
    "round trips of a run alone, over shared memory": over_memory,
    "round trips of a run alone, over tcp;ofi_rxm": over_network,
    "round trips of a run alone, counts that begin anew": begun_anew,
}
