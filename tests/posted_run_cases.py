"""Cases for runs on machines of their own, each with one operation in flight or with a list of them, by the compiled calls: whatever the network
takes, no two hold overlapping windows, every call is accepted, and the tree is clean when all are idle. A clock that is read in the wrong place
and a list that has too much are found out."""

from collections import Counter

from compare import NAMES, case
from compiled_table import library, nolthewyr
from model.record import Settings
from posted_lists import (
    BLOCKED, TICKET, TURN, ClaimByEarlyClock, ClaimWithClimb, DroppedReadsCounted, NoticesWithClaim, Together)
from posted_runs import CLAIM, CLIMB, NOTIFY, OneAtATime, Readings, World

NAMES["runs with operations in flight"] = ("seed",), ("overlapping windows held", "calls refused", "words not clean", "not ended")
NAMES["runs with lists in flight"] = NAMES["runs with operations in flight"]
NAMES["occurs in runs"] = ("phase or outcome", "number"), ("occurs",)
NAMES["counted in runs"] = ("place in the list of what is counted",), ("occurs",)
NAMES["clock read in the wrong place"] = ("place in the list of readings",), ("found out",)
NAMES["list posted in a wrong way"] = ("place in the list of ways",), ("found out",)

# So long that clocks that are 1 part in 20,000 too fast or too slow, and rounded down, are true (docs/LINKING.md).
WAIT = 40000
SEEDS, SEEDS_OF_LISTS, WINDOWS = 120, 80, 80
# Readings that must be found out, and by which claim at least: two hold overlapping windows, or the tree is not clean.
WRONG = [
    ("overlaps", Readings(after=(NOTIFY,))), ("overlaps", Readings(after=(CLAIM,))), ("overlaps", Readings(after=(CLIMB, CLAIM, NOTIFY))),
    ("not clean", Readings(within_patience=False)), ("refused", Readings(leaves_climbs=False)),
]
# The same for lists: t0 from before the claim, a claim found in time by a clock from before its notices, t1 from after the climb, and more.
WRONG_LISTS = [
    *((claim, readings, Together()) for claim, readings in (
        ("overlaps", Readings(after=(NOTIFY,))), ("overlaps", Readings(after=(CLAIM,))),
        ("overlaps", Readings(after=(TICKET, TURN, CLIMB, BLOCKED, CLAIM, NOTIFY))), ("overlaps", Readings(after=(CLIMB, CLAIM, NOTIFY))),
        ("refused", Readings(leaves_climbs=False)))),
    ("overlaps", Readings(), ClaimByEarlyClock()), ("not clean", Readings(), ClaimWithClimb()), ("not clean", Readings(), NoticesWithClaim()),
    ("overlaps", Readings(), DroppedReadsCounted()),
]


def counts_of(seed, readings=Readings(), posting=OneAtATime()):
    """What is counted of two to four runs in a low tree, with a patience from two waits up."""
    world = World(Settings(2 + seed % 2, 1 + seed % 4, WAIT, (2 + seed % 5) * WAIT), seed, readings, posting)
    return world.lived(2 + seed % 3, WINDOWS)


def held_apart(name, posting, seeds, counted):
    """In all runs together every phase and outcome occurs, and what else is counted."""
    library()
    total = Counter()
    for seed in range(seeds):
        counts = counts_of(seed, posting=posting)
        total += counts
        yield case(name, [seed], (0, 0, 0, 0)), tuple(counts[what] for what in ("overlaps", "refused", "not clean", "not ended"))
    for place, (kind, numbers) in enumerate((("phase", nolthewyr.Phase), ("outcome", list(nolthewyr.Outcome)[1:]))):
        yield from ((case("occurs in runs", [place, number], 1), int(total[kind, number] > 0)) for number in numbers)
    yield from ((case("counted in runs", [place], 1), int(total[what] > 0)) for place, what in enumerate(counted))


def one_at_a_time():
    return held_apart("runs with operations in flight", OneAtATime(), SEEDS, ["two hold"])


def lists():
    return held_apart("runs with lists in flight", Together(), SEEDS_OF_LISTS, ["two hold", "posted together", "dropped"])


def wrong_readings():
    """Of each some run shows it."""
    library()
    for place, (claim, readings) in enumerate(WRONG):
        found_out = any(counts_of(seed, readings)[claim] for seed in range(SEEDS))
        yield case("clock read in the wrong place", [place], 1), int(found_out)


def wrong_lists():
    library()
    for place, (claim, readings, posting) in enumerate(WRONG_LISTS):
        found_out = any(counts_of(seed, readings, posting)[claim] for seed in range(SEEDS_OF_LISTS))
        yield case("list posted in a wrong way", [place], 1), int(found_out)


SUITES = {
    "posted runs, none hold overlapping windows, and the tree is clean at the end": one_at_a_time,
    "posted runs, a clock read in the wrong place is found out": wrong_readings,
    "posted runs, with lists none hold overlapping windows, and the tree is clean at the end": lists,
    "posted runs, a list posted or completed in a wrong way is found out": wrong_lists,
}
