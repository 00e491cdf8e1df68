"""Cases for the compiled step count: held to the model, which counts in a run, for windows of every class, random ones, and those that are
refused; and that the windows find each broken step count out."""

from functools import lru_cache
from itertools import islice
from random import Random
from typing import NamedTuple

import compiled_table
import cover_cases
from broken_rules import by_broken
from broken_step_counts import ANSWERS, COUNTS, right
from compare import NAMES, case
from histories import TOP
from model import tree
from model.step_count import Answer, step_count
from window_classes import class_of, classes, windows_of

ASKED = ("levels", "distance", "left", "right")
NAMES["step count"] = ASKED, ("number", "steps")
NAMES["step count written down"] = ("by", *ASKED), ("number", "steps")
NAMES["step count refused"] = ASKED, ("number", "number by the model", "steps", "steps by the model")
NAMES["window classes"] = ("levels",), ("classes that occur", "others")
NAMES["right step count"] = ("levels",), ("windows unlike",)
NAMES["broken step count"] = ("place in the list of broken step counts",), ("found out",)

RANDOM_WINDOWS = 24
TREES = [(h, m) for h in tree.LEVELS for m in tree.DISTANCES]


class Counted(NamedTuple):
    """What was asked, the model's answer, and the class of the window, None if there is none."""

    asked: tuple
    answer: Answer
    levels: tuple


def counted(h, m, window):
    answer = step_count(h, m, *window)
    return Counted((h, m, *window), answer, None if answer.number else class_of(h, *window))


def counted_in_tree(h, m):
    """Windows of every class, then random ones of every size, some of which are refused."""
    rng = Random(f"step counts at {h} with {m}")
    windows = [window for levels in classes(h) for window in windows_of(rng, h, levels)]
    return [counted(h, m, window) for window in windows + list(islice(cover_cases.windows_of(h, rng), RANDOM_WINDOWS))]


@lru_cache(maxsize=None)
def all_counted():
    """By H and m what the model counts."""
    return {(h, m): counted_in_tree(h, m) for h, m in TREES}


def counted_at(h):
    return [each for m in tree.DISTANCES for each in all_counted()[h, m]]


def every_class(h):
    """The compiled count of each window is the model's. Every class that there can be occurs, and no other, with every m."""
    for each in counted_at(h):
        yield case("step count", each.asked, each.answer), compiled_table.step_count(*each.asked)
    for m in tree.DISTANCES:
        found = {each.levels for each in all_counted()[h, m]} - {None}
        yield case("window classes", [h], (len(classes(h)), 0)), (len(found.intersection(classes(h))), len(found.difference(classes(h))))


# By hand, from the phase table and the lists of document 01.
WRITTEN_DOWN = {
    # client 0 of the whole case: climb, claim and notify, in calls 2, 6 and 7
    (2, 1, 10, 20): 3,
    # client 1 of it, were nobody else there: ticket, turn, claim, wait and check
    (2, 1, 0, 256): 5,
    # two leaves
    (3, 1, 60, 70): 2 * (2 + 1 + 2),
    # node 2: ticket, turn, climb, claim, notify, wait and check; leaf 10: two ancestors, claim and two notices
    (3, 1, 10, 300): 7 + 5,
    # the root checks itself and its four children, which are the last inner nodes
    (3, 4, 100, 700): 3 + 1 + 5,
    # a leaf notifies levels 11, 7 and 4
    (12, 4, 0, 1): 11 + 1 + 3,
    # and one of 6 levels 5 and 3
    (6, 3, 65535, 65536): 5 + 1 + 2,
    # the root checks itself and three levels below it
    (12, 4, 0, 2 ** 28): 3 + 1 + 1 + 4 + 16 + 64,
}


def written_down():
    for asked, steps in WRITTEN_DOWN.items():
        for by, counts in enumerate((step_count, compiled_table.step_count)):
            yield case("step count written down", [by, *asked], (0, steps)), tuple(counts(*asked))


def edges(h):
    """Windows about the end of a tree, with edges of every size: l = r, l > r, r = N, r = N + 1."""
    n = tree.units(h)
    return [(0, 64), (n - 1, n), (0, n), (0, n + 1), (n - 1, n + 1), (n, n), (n, n + 1), (5, 5), (6, 5), (0, 0), (n, 0), (1, TOP), (TOP, TOP),
            (TOP, 0), (2 ** 32, 2 ** 32 + 1), (2 ** 32 + 5, 10), (5, 2 ** 32 + 10)]


def outside_and_edges():
    """H, m or both of them outside, and neither, each with windows of the tree and windows outside it; and the number that each must have."""
    levels, distances = (0, 1, 13, 64, 2 ** 32 + 2, TOP), (0, 5, 2 ** 32 + 1, TOP)
    for h in (*tree.LEVELS, *levels):
        for m in (*tree.DISTANCES, *distances):
            for l, r in edges(h if h in tree.LEVELS else 12):
                yield (h, m, l, r), 1 if h in levels or m in distances else 7 if l >= r or r > 64 * 4 ** (h - 1) else 0


def refused():
    """It tests 1, then 7; a refused answer has its number only."""
    for asked, number in outside_and_edges():
        found, by_model = compiled_table.step_count(*asked), step_count(*asked)
        steps = by_model.steps if number == 0 else 0
        yield case("step count refused", asked, (number, number, steps, steps)), (found[0], by_model.number, found[1], by_model.steps)


def broken_counts():
    """Of each broken count some window shows it, which the compiled count is asked for above. A count that is worked out as these are, with
    nothing wrong in it, is the model's everywhere."""
    windows = [each for h in tree.LEVELS for each in counted_at(h) if each.answer.number == 0]
    for h in tree.LEVELS:
        yield case("right step count", [h], 0), sum(right(*each.asked) != each.answer.steps for each in windows if each.asked[0] == h)
    for place, broken in enumerate(COUNTS.values()):
        yield case("broken step count", [place], 1), int(any(broken(*each.asked) != each.answer.steps for each in windows))
    asked = [(asked, step_count(*asked)) for asked, _ in outside_and_edges()]
    for place, broken in enumerate(ANSWERS.values(), len(COUNTS)):
        yield case("broken step count", [place], 1), int(any(by_broken(broken, *each) != answer for each, answer in asked))


SUITES = {
    "step count, written down": written_down,
    **{f"step count at H {h}, every window class": lambda h=h: every_class(h) for h in tree.LEVELS},
    "step count, refused in order of testing": refused,
    "step count, the windows find each broken count out": broken_counts,
}
