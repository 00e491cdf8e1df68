"""Two clients that hold overlapping windows at the same time. Clocks that keep what request 2.3 supposes cannot bring it about; others can."""

from collections import defaultdict
from itertools import combinations
from typing import NamedTuple

from model.history import overlap
from scheduling.events import Holding, at, holdings
from scheduling.names import HELD, listed, window

CANNOT_BE = "clocks that keep what request 2.3 supposes cannot do this: docs/DEMAND-3.md says why"


class Overlap(NamedTuple):
    """A holding, and one that began before it, had not ended when it began, and has a unit in common with it."""

    later: Holding
    earlier: Holding


def edges(held):
    """Of a holding, or of a client's row."""
    return held.left, held.right


def meets(later, earlier):
    still = earlier.end is None or earlier.end.place > later.start.place
    return still and overlap(edges(later), edges(earlier))


def overlaps(events):
    """Every overlap, in the order of the calls by which they came about."""
    found = holdings(events)
    return [Overlap(later, earlier) for place, later in enumerate(found) for earlier in found[:place] if meets(later, earlier)]


def beside(events):
    """For the place of each call by which an overlap came about: who holds a part of the window beside its client."""
    others = defaultdict(list)
    for later, earlier in overlaps(events):
        others[later.start.place].append(f"client {earlier.client} holds {window(*edges(earlier))}")
    return {place: f"while {listed(words)}" for place, words in others.items()}


def common(one, other):
    """The units that are in both of two overlapping windows."""
    return window(max(one.left, other.left), min(one.right, other.right))


def in_words(found):
    later, earlier = found
    return (f"client {later.client} holds {window(*edges(later))} from {at(later.start)} on, while client {earlier.client} holds "
            f"{window(*edges(earlier))} since {at(earlier.start)}: both hold {common(later, earlier)}")


def overlap_lines(events):
    """Each overlap, and that true clocks cannot bring it about."""
    found = overlaps(events)
    yield from map(in_words, found)
    yield from [CANNOT_BE] * bool(found)


def overlaps_of_rows(rows):
    """The same of the clients that hold after the last call, by their rows of the planners' page."""
    held = [(client, row) for client, row in enumerate(rows) if row.phase == HELD]
    pairs = [(one, other) for one, other in combinations(held, 2) if overlap(edges(one[1]), edges(other[1]))]
    yield from (f"client {one} and client {other} both hold {common(row, its)}" for (one, row), (other, its) in pairs)
    yield from [CANNOT_BE] * bool(pairs)
